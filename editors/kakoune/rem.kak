# rem: moves the selected statements into a function of their own, in Kakoune.
#
#   source /path/to/editors/kakoune/rem.kak
#
# and then, on a selection, `:rem-extract NAME`, or `:rem-extract NAME ref` to pass by reference where both would do. The buffer becomes
# the changed file, with the cursor on the call; or a sentence says why there is none. `rem_program` is the program.

declare-option str rem_program rem
declare-option str rem_sentences %sh{ printf %s "$(dirname "$kak_source")/../sentences.txt" }
declare-option -hidden str rem_begin
declare-option -hidden str rem_text

define-command rem-extract -params 1..2 -docstring 'rem-extract NAME [ref]: moves the selected statements into a function' %{
    # the places of the selection's two ends
    evaluate-commands -draft %{
        execute-keys '<a-:><a-;>;'
        set-option buffer rem_begin %val{cursor_byte_offset}
    }
    set-option buffer rem_text %sh{ mktemp }
    evaluate-commands -no-hooks %{ write -force -method overwrite %opt{rem_text} }
    evaluate-commands -draft %{
        execute-keys '<a-:>;'
        evaluate-commands %sh{
            end=$((kak_cursor_byte_offset + $(printf %s "$kak_selection" | wc -c)))
            printf "set-option buffer rem_begin '%s %s'\n" "$kak_opt_rem_begin" "$end"
        }
    }
    evaluate-commands %sh{
        set -- "$@"
        # places are those of lines that end with a line feed alone
        said=$(tr -d "\r" < "$kak_opt_rem_text" | "$kak_opt_rem_program" extract "$1" $kak_opt_rem_begin ${2:+"$2"} 2>&1 > "$kak_opt_rem_text.new")
        if [ -z "$said" ]; then
            printf "execute-keys '%%|cat %s<ret>'\n" "$kak_opt_rem_text.new"
            printf "execute-keys 'gg/\\\\b%s\\\\(<ret><a-;>;'\n" "$1"
        else
            printf 'fail "rem: %s"\n' "$(awk -F '\t' -v said="${said#error: }" '
                BEGIN { n = split(said, all, " "); words = ""; for (i = 1; i <= n; i++) if (all[i] !~ /^[0-9]+$/) words = words all[i] " "; best = said }
                index(words, $1 " ") == 1 && length($1) > longest { longest = length($1); best = $3 }
                END { print best }' "$kak_opt_rem_sentences")"
        fi
        printf "nop %%sh{ rm -f '%s' '%s.new' }\n" "$kak_opt_rem_text" "$kak_opt_rem_text"
    }
}
