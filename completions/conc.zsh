#compdef conc conc_chart
# Completions of conc and conc_chart for zsh: commands, forms, options with their numbers, and files by their kind. Put
# this file into a folder of $fpath as _conc, before compinit is called; or source it behind compinit:
#   . completions/conc.zsh
# docs/conc.1 and docs/conc_chart.1 have the words.

_conc_clock() {
  local here=1
  compadd -- system && here=0
  _files -g '*.clock' && here=0
  return here
}

_conc_command() {
  local -a commands=(
    'run:run a script through the readings of a clock, and print the history'
    'plan:list the requests that a script enters'
    'check:judge a history'
    'status:show how the requests of the journal stand'
    'output:show the report of a request'
    'make:run inputs of a generator, and sum up'
    'repeat:write the script of repeated submissions'
  )
  _describe command commands
}

_conc_form() {
  local -a forms=(
    'timeline:the requests in the columns of a text'
    'svg:a picture'
    'csv:a table with a line for each request'
    'json:a line for each event and each request'
  )
  _describe form forms
}

_conc_run() {
  _arguments \
    '(--threads)--threads=[so many workers, each in a thread]:number:({0..32})' \
    '(--watch)--watch=[so many watchers, each in a thread]:number:({0..8})' \
    '1:setup:_files -g "*.toml"' \
    '2:script:_files -g "*.csv"' \
    '3:clock:_conc_clock'
}

_conc_chart() {
  local curcontext=$curcontext state line ret=1
  local -A opt_args
  _arguments -C '1:form:_conc_form' '*::words:->words' && ret=0
  [[ $state != words ]] || _arguments \
    '(--plan)--plan=[what conc plan printed for the same files]:plan:_files' \
    '(--script)--script=[the script]:script:_files -g "*.csv"' \
    '1:history:_files' && ret=0
  return ret
}

_conc() {
  [[ $service != conc_chart ]] || { _conc_chart "$@"; return }
  local curcontext=$curcontext state line ret=1
  local -A opt_args
  _arguments -C '1:command:_conc_command' '*::words:->words' && ret=0
  [[ $state == words ]] || return ret
  local setup='1:setup:_files -g "*.toml"' script='2:script:_files -g "*.csv"'
  case $words[1] in
    run) _conc_run ;;
    plan | status) _arguments $setup $script ;;
    check) _arguments $setup $script '3:clock:_files -g "*.clock"' '4:history:_files' ;;
    output) _arguments $setup $script '3:request, from 1:' ;;
    make) _arguments '1:seed:' '2:size, 1 to 4000:' ;;
    repeat) _arguments '1:repeats:_files -g "*.csv"' ;;
  esac
}

if [[ $funcstack[1] == _conc ]]; then
  _conc "$@"
else
  compdef _conc conc
  compdef _conc_chart conc_chart
fi
