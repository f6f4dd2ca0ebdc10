# Completion of the tools around secrec for bash.

# Offers the words of the list that begin as the current one does.
_secrec_tools_words() {
  mapfile -t COMPREPLY < <(compgen -W "$1" -- "$current")
}
# Offers folders and the files that match a pattern; all files where none does.
_secrec_tools_files() {
  compopt -o filenames 2>/dev/null
  mapfile -t COMPREPLY < <({ compgen -f -X "!$1" -- "$current"; compgen -d -- "$current"; } | sort -u)
  [ "${#COMPREPLY[@]}" -gt 0 ] || mapfile -t COMPREPLY < <(compgen -f -- "$current")
}
_secrec_tools() {
  local current=${COMP_WORDS[COMP_CWORD]} before=${COMP_WORDS[COMP_CWORD - 1]} options files
  COMPREPLY=()
  case ${1##*/} in
    secrec-job)
      options='--input --budget --views --record --schedule --publish-only --json --trio --port --rehearse --check-wraps --signed --cost --delay --bandwidth --help'
      files='*.sc'
      ;;
    secrec-explain) options='--json --input --budget --opens --help' files='*.sc' ;;
    secrec-result) options='--by --as --digits --help' files='*' ;;
    csv_to_input)
      options='--to --separator --decimal --encoding --missing --missing-words --scale --add --divide --signed --bool --name --public --help' files='*.csv'
      ;;
    random_tape) options='--own --deal --to --help' files='' ;;
    random_input) options='--to --help' files='*.json' ;;
    secrec-sum) options='--budget --parts --help' files='*' ;;
    draw_run) options='--help' files='*' ;;
    *) return ;;
  esac
  case $before in
    --input | --deal) _secrec_tools_files '*.json'; return ;;
    --by) _secrec_tools_files '*.result'; return ;;
    --as) _secrec_tools_words 'table csv json'; return ;;
    --missing) _secrec_tools_words 'refuse skip flags'; return ;;
    --separator) _secrec_tools_words '; , tab'; return ;;
    --opens) _secrec_tools_files '*.sc'; return ;;
    --views | --record | --schedule | --to) _secrec_tools_files '*'; return ;;
    --budget | --port | --signed | --delay | --bandwidth | --decimal | --encoding | --missing-words | --scale | --add) return ;;
    --divide | --bool | --name | --public | --digits) return ;;
  esac
  case $current in
    -*) _secrec_tools_words "$options" ;;
    *) if [ -n "$files" ]; then _secrec_tools_files "$files"; else _secrec_tools_words "$options"; fi ;;
  esac
}
complete -F _secrec_tools secrec-job secrec-explain secrec-result csv_to_input random_tape random_input secrec-sum draw_run
