# What the script `audit` says on standard error before the program does: which word the program won't
# take, or which file it can't open. The program's own line, which comes then, names neither. These functions only look:
# no file is opened that can be opened, so nothing is taken from a pipe. Of what is not sure they say nothing.
#
# The script that reads this file has its own name in `name`.
# shellcheck shell=bash disable=SC2154

# Says a line, if standard error takes one, and fails. Each %s in the line stands for a word, which is in quotes unless
# it is plain, so that no terminal obeys a sign of it.
refuse() { # LINE WORD..
  local LC_ALL=C line=$1 word
  local -a words=()
  shift
  for word; do
    if [[ -z $word || $word == *[!a-zA-Z0-9._/=+:@%,-]* ]]; then word=${word@Q}; fi
    words+=("$word")
  done
  # shellcheck disable=SC2059
  printf "%s: $line\n" "$name" "${words[@]}" >&2 || true
  return 1
}

# Reads words as the programs do. An option with a value is `--option value` or `--option=value`, and a value that is a
# word of its own begins with no hyphen, unless it is `-`. After `--` all words are files. Sets `files`, and `options`
# and `values`, one for each option. Refuses the first word that no program takes.
read_words() { # OPTIONS-WITH-A-VALUE OTHER-OPTIONS WORD..
  local -A takes=()
  local word option='' value waits='' ended=''
  for option in $1; do takes[--$option]=value; done
  for option in $2; do takes[--$option]=nothing; done
  shift 2
  files=() options=() values=()
  are_texts "$@" || return
  for word; do
    if [[ $ended || $word != -?* ]]; then
      if [[ $waits ]]; then values+=("$word") waits=''; else files+=("$word"); fi
      continue
    fi
    if [[ $waits ]]; then refuse '%s has no value' "$option" || return; fi
    if [[ $word == -- ]]; then ended=yes && continue; fi
    option=${word%%=*} value=${word#*=}
    options+=("$option")
    case ${takes[$option]-},$word in
      value,*=*) values+=("$value") ;;
      value,*) waits=yes ;;
      nothing,*=*) refuse '%s takes no value' "$option" || return ;;
      nothing,*) values+=('') ;;
      *) refuse_option "$option" || return ;;
    esac
  done
  if [[ $waits ]]; then refuse '%s has no value' "$option" || return; fi
  ((${#files[@]})) || refuse 'no file is named'
}

refuse_option() { # WORD
  case $1 in
    --help | --version) refuse '%s must be the only word' "$1" ;;
    *) refuse 'no option %s; --help lists them, and a file of that name follows --' "$1" ;;
  esac
}

# Whether all words are UTF-8. The programs take no others, not even as names of files.
are_texts() { # WORD..
  local LC_ALL=C word
  if [[ $* != *[$'\x80'-$'\xff']* ]]; then return; fi
  { LC_ALL=C.UTF-8; } 2>/dev/null
  for word; do
    [[ $word =~ ^.*$ ]] || refuse '%s is not UTF-8' "$word" || return
  done
}

# Looks whether files can be opened. Refuses the first one that can't, and says why.
look_at() { # FILE..
  local file why
  for file; do
    if [[ -p $file || -r $file && ! -S $file ]]; then continue; fi
    why=$(why_not "$file")
    if [[ $why ]]; then refuse "%s: $why" "$file" || return; fi
  done
}

# A folder can be opened, and not read.
refuse_folders() { # FILE..
  local file
  for file; do
    if [[ -d $file ]]; then refuse '%s: Is a directory' "$file" || return; fi
  done
}

# Why a file can't be opened, as bash says. The second slash keeps bash from taking /dev/tcp/HOST/PORT for a connection.
why_not() { # FILE
  local LC_ALL=C said
  said=$({ : <"${1/#\///\/}"; } 2>&1) || printf '%s' "${said##*: }"
}
