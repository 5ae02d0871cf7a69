# What zsh shows where the words of an `office` line are completed: zsh -f complete.zsh FOLDER WORDS TEXT, with _office in FOLDER.
# Waits until the text is shown, which a minute without it ends as hung, and for one second if it is empty.
zmodload zsh/zpty || exit 3
zpty -b shell zsh -f -i
zpty -w shell "fpath=($1 \$fpath); autoload -U compinit; compinit -D -u; PS1=; print READY"
said=
for (( n = 0; n < 3000; n++ )); do
    zpty -r -t shell chunk && said+=$chunk || sleep 0.02
    [[ $said = *$'\n'READY* ]] && break
done
zpty -w -n shell "office $2"$'\t'
said=
for (( n = 0; n < (${#3} ? 3000 : 50); n++ )); do
    zpty -r -t shell chunk && said+=$chunk || sleep 0.02
    [[ -n $3 && $said = *$3* ]] && break
done
zpty -d shell
print -r -- $said
