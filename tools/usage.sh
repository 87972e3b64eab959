# Sourced by the bash scripts: their --help, and what they print if their arguments are wrong. The text is the comment at
# the head of the script; its line `usage: ..` says which arguments the script takes.

# Prints the comment at the head of the script.
print_head() {
  sed -n '2,$ { /^#/ !q; s/^# \{0,1\}//p; }' "$0"
}

# Prints what is wrong with the arguments, and the usage, on standard error. Ends with status 2.
refuse_arguments() { # MESSAGE
  local folder
  folder=$(cd "$(dirname "$0")" && pwd)
  { echo "${folder##*/}/${0##*/}: $1"; print_head | sed -n '/^usage: /,/^$/ { /./p; }'; } >&2
  exit 2
}

# Prints the head for -h or --help, and ends with status 0. Refuses any other option, and more arguments than the script
# takes. A script that has options of its own sorts them out before it calls this.
usage() { # MOST|any ARGUMENT..
  local most=$1 word
  shift
  for word; do
    case $word in
      -h | --help) print_head; exit 0 ;;
      -*) refuse_arguments "there is no option $word" ;;
    esac
  done
  [ "$most" = any ] || [ $# -le "$most" ] || refuse_arguments "$# arguments, but it takes at most $most"
}
