# Completion for bash: commands, their options, and files. The lines between the marks are made by `python3 -I
# tools/ntbview --manual tools/complete/ntbsim.bash`.
_ntbsim() {
    local word=${COMP_WORDS[COMP_CWORD]} before=${COMP_WORDS[COMP_CWORD - 1]} name takes options found='' words=()
    COMPREPLY=()
    while read -r name takes options; do
        [ "$name" != '#:' ] || continue
        [ "$COMP_CWORD" -gt 1 ] || words+=("$name")
        [ "$name" != "${COMP_WORDS[1]}" ] || found=$takes
        [ "$name" != "${COMP_WORDS[1]}" ] || [ "$COMP_CWORD" -eq 1 ] || read -r -a words <<<"$options --help"
    done <<'WORDS'
#: begin words
replay [FILE]
trace [FILE]
check [FILE]
run [FILE]
explore [FILE]
stream [FILE]
reads [FILE]
load SEED_FRAMES
--check FILE.. --quiet --color
--show FILE --from --quiet --color
--draw FILE --run --joined --stream --from --quiet --color
--json FILE --quiet --color
--page FILE --from --quiet --color
--pcap FILE --from --quiet --color
--test FILE.. --tap --json --junit --shard --allow-vacuous --quiet --color
--explore FILE.. --into --witness --brute --tap --json --junit --shard --allow-vacuous --quiet --color
--join [FILE] --quiet --color
--build -
--program -
--version -
--help -
#: end words
WORDS
    case $before in
    --color) words=(auto always never) found='' ;;
    --from | --into) words=() found=$before ;;
    --witness | --shard) return ;;
    esac
    for name in "${words[@]}"; do
        [[ $name != "$word"* ]] || COMPREPLY+=("$name")
    done
    [[ $COMP_CWORD -gt 1 && $word != -* && $found == *FILE* || $found == --* ]] || return
    # The word as it was typed: without the backslashes and the quote of the shell.
    word=${word//\\/}
    word=${word#[\"\']}
    compopt -o filenames 2>/dev/null
    for name in "${word/#~\//$HOME/}"*; do
        [[ -d $name || -f $name && $found != --into && ($found == --from || $name == *.ntb || $name == *.reads) ]] || continue
        [[ $name != -* ]] || name=./$name
        COMPREPLY+=("$name")
    done
}
complete -F _ntbsim ntbsim ./ntbsim
