# Prints the words that zsh shows at a terminal when Tab is pressed after each of the lines given. What is typed ahead keeps
# zsh from showing a list, so Tab tells when it is done, and nothing is typed before.
zmodload zsh/zpty
seen_until() {
    seen=
    until [[ $seen == *$1* ]]; do zpty -r shell part && seen+=$part; done
}
zpty shell zsh -f -i
zpty -w shell "PS1='> '; TERM=dumb; fpath=($TOP/completions \$fpath); autoload -U compinit && compinit -u -d $T/dump"
zpty -w shell "tab() { zle expand-or-complete; zle -R; print -r -- to''ld }; zle -N tab; bindkey '^I' tab"
zpty -w shell "LISTMAX=1000; zstyle ':completion:*' menu no; echo rea''dy"
seen_until ready
for line in "$@"; do
    zpty -n -w shell "$line"$'\t'
    seen_until told
    zpty -n -w shell $'\C-u'
    print -r -- "== $line"
    # All but the line itself and what tells the end.
    print -r -- "${seen%told*}" | sed 's,\x1b\[[0-9;?]*[A-Za-z],,g' | tr -cs 'A-Za-z0-9_%:.-' '\n' | grep -v -x -F -e '' | sort -u | grep -v -x -F -f <(print -l -- ${=line})
done
zpty -d shell
