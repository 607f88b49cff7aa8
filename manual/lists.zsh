# Part of `try`: types WORDS and a tab into a zsh, and writes what it is given to complete them, sorted, one a line.
# usage: zsh -f manual/lists.zsh COMPLETIONS LISTED WORDS, in the folder whose files are completed; LISTED is a file for its own use
zmodload zsh/zpty
: >$2
zpty shell zsh -f -i
zpty -w shell "PS1=; unset zle_bracketed_paste; fpath=(${(q)1} \$fpath); autoload -Uz compinit; compinit -u -D"
zpty -w shell "compadd() { local -a of; builtin compadd -O of \"\$@\"; print -rl -- \$of >>${(q)2}; builtin compadd \"\$@\" }"
# Keys may come once zsh edits a line.
zpty -w shell "zle-line-init() { print rea''dy }; zle -N zle-line-init"
zpty -r -m shell said '*ready*'
# The line is taken away before the next one is typed.
zpty -n -w shell "$3"$'\t\x15'"print do''ne"$'\n'
zpty -r -m shell said '*done*'
grep . $2 | sort -u
