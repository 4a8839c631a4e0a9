# bash completion for pads: commands, options, option values and files.
# Made by launcher/make from launcher/commands.txt: edit that.
# shellcheck shell=bash

# The words that follow a first word: DESC, FOLDER, COMMAND, or what is typed by hand.
_pads_words() {
  case $1 in
    check) echo 'DESC' ;;
    parse) echo 'DESC' ;;
    print) echo 'DESC' ;;
    summary) echo 'DESC' ;;
    query) echo 'DESC PATH EXPR' ;;
    selftest) echo 'N' ;;
    help) echo 'COMMAND' ;;
    --progress) echo 'ORDER' ;;
    explain) echo 'DESC' ;;
    faults) echo 'DESC FILE..' ;;
    csv) echo 'DESC FIELD..' ;;
    --install) echo 'FOLDER' ;;
    --uninstall) echo 'FOLDER' ;;
  esac
}

# The options that a command takes.
_pads_options() {
  case $1 in
    check) echo '--coding=' ;;
    parse) echo '--records= --coding= --max= --mask= --scan= --jobs=' ;;
    print) echo '--records= --coding= --max= --scan= --jobs=' ;;
    summary) echo '--records= --coding= --max= --mask= --scan= --top= --jobs=' ;;
    query) echo '--records= --coding= --max= --mask= --scan= --jobs=' ;;
    selftest) echo '--jobs=' ;;
  esac
}

# The values of an option, up to what is typed by hand.
_pads_values() {
  case $1 in
    --records) printf '%s\n' nl term: fixed: rdw whole ;;
    --coding) printf '%s\n' ascii ebcdic ;;
    --mask) printf '%s\n' both check set none ;;
  esac
}

# _pads_among TYPED WORD ..: those words that begin with what is typed. No blank follows one that goes on.
_pads_among() {
  mapfile -t COMPREPLY < <(compgen -W "${*:2}" -- "$1")
  case ${COMPREPLY[*]-} in *[=:]) compopt -o nospace ;; esac
}

# Folders, and files whose names end so; where none does, all files.
_pads_files() {
  compopt -o filenames
  mapfile -t COMPREPLY < <(compgen -f -X "!*$1" -- "$2"; compgen -d -- "$2")
  [ ${#COMPREPLY[@]} -gt 0 ] || mapfile -t COMPREPLY < <(compgen -f -- "$2")
}

_pads() {
  local line=${COMP_LINE:0:COMP_POINT} typed=${COMP_WORDS[COMP_CWORD]}
  local tokens first=1 last token options=() option words count=0
  # The words as blanks part them: readline also parts them at = and :.
  read -ra tokens <<<"$line"
  [[ $line != *[[:blank:]] ]] || tokens+=('')
  last=$((${#tokens[@]} - 1)) token=${tokens[-1]}
  COMPREPLY=()
  if [ "${tokens[1]}" = --progress ] && [ "$last" -gt 1 ]; then first=2; fi
  if [ "$last" -eq 1 ]; then
    _pads_among "$token" check parse print summary query selftest --help help --version --progress explain faults csv --install --uninstall
  elif [ "$last" -eq "$first" ]; then
    _pads_among "$token" check parse print summary query selftest
  elif [[ $token = --*=* ]]; then
    option=${token%%=*}
    mapfile -t options < <(_pads_values "$option")
    if [[ $COMP_WORDBREAKS = *=* ]]; then
      [[ $token = *:* ]] || _pads_among "${token#*=}" "${options[@]}"
    else
      _pads_among "$token" "${options[@]/#/$option=}"
    fi
  elif [[ $token = -* ]]; then
    for option in $(_pads_options "${tokens[first]}"); do
      [[ $line = *" $option"* ]] || options+=("$option")
    done
    _pads_among "$token" "${options[@]}"
  else
    for token in "${tokens[@]:first + 1:last - first - 1}"; do [[ $token = -* ]] || count=$((count + 1)); done
    read -ra words < <(_pads_words "${tokens[first]}")
    case ${words[count]-} in
      DESC) _pads_files .pads "$typed" ;;
      FOLDER) compopt -o filenames; mapfile -t COMPREPLY < <(compgen -d -- "$typed") ;;
      COMMAND) _pads_among "$typed" check parse print summary query selftest --help help --version --progress explain faults csv --install --uninstall ;;
    esac
  fi
}

complete -F _pads pads
