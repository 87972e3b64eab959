# Sourced by tools/install and tools/uninstall: their messages, and the list of what is installed.
#
# The list is a file below the prefix. Its lines are `folder PATH` and `file PATH`: the folders that install made, and
# the files that it put there. Paths are absolute, without DESTDIR.

script=tools/${0##*/}
. "$(dirname "${BASH_SOURCE[0]}")/usage.sh"

# Prints what is wrong, and ends with status 1.
fail() { # MESSAGE
  echo "$script: $1" >&2
  exit 1
}

# Sets `prefix`, an absolute path, and `list` from the arguments of the script; prints its head for --help.
read_prefix() { # [PREFIX]
  usage 1 "$@"
  [ -n "${1-/usr/local}" ] || refuse_arguments "PREFIX is empty"
  prefix=$(realpath -ms -- "${1-/usr/local}") || exit 1
  root=${DESTDIR:+$(realpath -ms -- "$DESTDIR")}
  prefix=${prefix%/} root=${root%/}
  list=$root$prefix/share/neqoshab/installed
}

# Sets `listed_files` and `listed_folders` from the list. Ends if a line can't be from an install to this prefix.
read_list() {
  local kind path
  listed_files=() listed_folders=()
  while read -r kind path; do
    case $kind in
      file) listed_files+=("$path") ;;
      folder) listed_folders+=("$path") ;;
      *) continue ;;
    esac
    is_of_prefix "$kind" "$path" || fail "$list isn't of an install to ${prefix:-/}: it names $path; give that prefix"
  done <"$list"
}

# Succeeds if a file is below the prefix; if a folder is the prefix, or below or above it.
is_of_prefix() { # file|folder PATH
  case $2/ in
    */../*) return 1 ;;
    "$prefix"/*) return 0 ;;
  esac
  case $1:$prefix/ in folder:"$2"/*) return 0 ;; esac
  return 1
}
