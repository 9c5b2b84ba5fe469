# Completions of conc and conc_chart for bash: commands, forms, options with their numbers, and files by their kind.
# Source this file, or put it into a folder of bash completions as conc and as conc_chart:
#   . completions/conc.bash
# Where no file of a kind begins as the word does, each file is offered. docs/conc.1 and docs/conc_chart.1 have the words.

# Reads the words up to the cursor, of which these options have a value: puts the option whose value the cursor is at
# into option, the part of a value or word that is there into part, what a reply has to have before it into front, the
# options that are given into given, and the other words into before.
_conc_read() {
  local i word last joined='' options=" $* "
  local words=()
  # bash cuts --threads=8 into three words where = is one of its breaks; then a reply is the value alone.
  for ((i = 1; i <= COMP_CWORD; i++)); do
    word=${COMP_WORDS[i]}
    last=$((${#words[@]} - 1))
    if [[ $word == = && $last -ge 0 && ${words[last]} == --* && ${words[last]} != *=* ]]; then
      words[last]+='='
      joined=yes
    elif [[ $joined == yes ]]; then
      words[last]+=$word
      joined=whole
    else
      words+=("$word")
      joined=
    fi
  done
  option='' part='' front='' given=' ' before=()
  last=$((${#words[@]} - 1))
  for ((i = 0; i < last; i++)); do
    word=${words[i]}
    if [[ -n $option ]]; then
      option=
    elif [[ $options == *" ${word%%=*} "* ]]; then
      given+="${word%%=*} "
      [[ $word == *=* ]] || option=$word
    else
      before+=("$word")
    fi
  done
  part=${words[last]}
  if [[ -z $option && $part == --*=* && $options == *" ${part%%=*} "* ]]; then
    option=${part%%=*}
    [[ -n $joined ]] || front=$option=
    part=${part#*=}
  fi
}

# Offers those of these words that begin as the part does.
_conc_words() {
  local word
  for word in "$@"; do
    [[ $word != "$part"* ]] || COMPREPLY+=("$front$word")
  done
}

# Offers the options of these that are not given.
_conc_options() {
  local word
  for word in "$@"; do
    [[ $given == *" $word "* ]] || _conc_words "$word"
  done
}

# Offers the files with this ending and the folders, or each file where there are none; without an ending, each file.
# No command takes the name of a file that begins with a dash.
_conc_files() {
  local name found=
  compopt -o filenames 2> /dev/null
  while IFS= read -r name; do
    if [[ $name != -* && ( -d $name || $name == *"$1" ) ]]; then
      COMPREPLY+=("$front$name")
      found=yes
    fi
  done < <(compgen -f -- "$part")
  [[ -n $found || -z $1 ]] || _conc_files ''
}

_conc() {
  local option part front given before
  COMPREPLY=()
  _conc_read --threads --watch
  if [[ ${#before[@]} -eq 0 ]]; then
    [[ -n $option || $given != ' ' ]] || _conc_words run plan check status output make repeat
    return
  fi
  local command=${before[0]} count=$((${#before[@]} - 1))
  if [[ $command != run && ( -n $option || $given != ' ' ) ]]; then
    return
  fi
  case $option in
    --threads) _conc_words {0..32}; return ;;
    --watch) _conc_words {0..8}; return ;;
  esac
  if [[ $command == run && ( $part == -* || $count -ge 3 ) ]]; then
    _conc_options --threads --watch
    return
  fi
  case $command:$count in
    run:0 | plan:0 | check:0 | status:0 | output:0) _conc_files .toml ;;
    repeat:0) _conc_files .csv ;;
    run:1 | plan:1 | check:1 | status:1 | output:1) _conc_files .csv ;;
    run:2) _conc_words system; _conc_files .clock ;;
    check:2) _conc_files .clock ;;
    check:3) _conc_files '' ;;
  esac
}

_conc_chart() {
  local option part front given before
  COMPREPLY=()
  _conc_read --plan --script
  if [[ ${#before[@]} -eq 0 ]]; then
    [[ -n $option || $given != ' ' ]] || _conc_words timeline svg csv json
    return
  fi
  case $option in
    --plan) _conc_files ''; return ;;
    --script) _conc_files .csv; return ;;
  esac
  if [[ ${#before[@]} -ge 2 ]]; then
    _conc_options --plan --script
  elif [[ $part == -* ]]; then
    _conc_words -
    _conc_options --plan --script
  else
    _conc_files ''
  fi
}

complete -F _conc conc
complete -F _conc_chart conc_chart
