# Completion of the words of netsim for bash: forms, files, and for probe and waves the taps of the layout.
# Read it by `source netsim.bash`, or put it into the folder of bash-completion under the name `netsim`.

# The taps of a layout, a line each: the stations' names, and NAME:P for each port of each repeater.
_netsim_taps() {
  awk '
    # The next word, string or mark of the file; comments, commas and white space are left out.
    function token(  quote, end) {
      while (1) {
        while (match(line, /^([ \t\r,]+|#.*)/)) line = substr(line, RLENGTH + 1)
        if (line != "") break
        if ((getline line) <= 0) return 0
      }
      quote = substr(line, 1, 1)
      is_string = quote == "\"" || quote == "\047"
      if (is_string) {
        end = index(substr(line, 2), quote)
        if (end == 0) end = length(line)
        word = substr(line, 2, end - 1)
        line = substr(line, end + 2)
      } else {
        if (!match(line, /^(\[\[|\]\]|[A-Za-z0-9_.+-]+)/)) RLENGTH = 1
        word = substr(line, 1, RLENGTH)
        line = substr(line, RLENGTH + 1)
      }
      return 1
    }
    # A row begins at a header `[[table]]`, and at a brace in an array `table = [..]`.
    function begin(of) {
      if (of == "station" || of == "repeater") { rows++; kind[rows] = of }
      if (of == "repeater.port") ports[rows]++
    }
    function open_array() { depth++; array[depth] = key }
    function open_brace() {
      if (depth == 1 && table == "") begin(array[1])
      if (depth == 2 && array[1] == "repeater" && array[2] == "port") begin("repeater.port")
      if (depth == 1 && table == "repeater" && array[1] == "port") begin("repeater.port")
    }
    function is_in_row() {
      return depth == 0 ? table == kind[rows] : depth == 1 && table == "" && array[1] == kind[rows]
    }
    function mark() {
      if (word == "[[" && depth == 0) { token(); table = word; token(); begin(table) }
      else if (word == "[[") { open_array(); open_array() }
      else if (word == "[") open_array()
      else if (word == "]") depth--
      else if (word == "]]") depth -= 2
      else if (word == "{") open_brace()
    }
    BEGIN {
      while (token()) {
        if (word == "=" && !is_string) {
          key = before
          if (!token()) break
          if (!is_string) mark()
          else if (key == "name" && rows && is_in_row()) name[rows] = word
        } else if (is_string || word ~ /^[A-Za-z0-9_-]/) before = word
        else mark()
      }
      for (row = 1; row <= rows; row++) {
        if (kind[row] == "station") print name[row]
        for (port = 1; port <= ports[row]; port++) print name[row] ":" port
      }
    }' "$1" 2>/dev/null
}

# Files that end as is asked, and folders.
_netsim_files() {
  compopt -o filenames 2>/dev/null
  mapfile -t COMPREPLY < <(compgen -f -X "!*.$1" -- "$2"; compgen -d -- "$2")
}

# The words up to the cursor, with what stands around a colon as one word.
_netsim_words() {
  local part glued=
  words=()
  for part in "${COMP_WORDS[@]:0:COMP_CWORD+1}"; do
    if [ "$part" = : ] || [ -n "$glued" ]; then
      words[${#words[@]} - 1]+=$part
      glued=
      [ "$part" != : ] || glued=1
    else
      words+=("$part")
    fi
  done
}

_netsim_choices() {
  mapfile -t COMPREPLY < <(compgen -W "$1" -- "$current")
}

_netsim() {
  local words at current before
  _netsim_words
  at=$((${#words[@]} - 1))
  current=${words[at]}
  COMPREPLY=()
  if [ "$at" = 1 ]; then
    _netsim_choices "check slack plain run stop resume demo probe waves page picture meter frames --help --version"
    return
  fi
  case ${words[1]}:$at in
    check:2 | slack:2 | plain:2 | run:2 | stop:2 | resume:2 | probe:2 | waves:2 | page:2 | frames:2 | picture:2)
      _netsim_files toml "$current" ;;
    meter:2 | frames:3 | picture:3) _netsim_files log "$current" ;;
    plain:3 | run:3 | stop:3 | resume:3) _netsim_files '*' "$current" ;;
    run:4 | demo:3) _netsim_choices "1 2 4 8 16 32 64" ;;
    demo:2) _netsim_choices "1 2 4 8 16 32 64 128" ;;
    probe:[5-9] | probe:1[0-9] | probe:20 | waves:[5-9] | waves:1[0-9] | waves:20)
      _netsim_choices "$(_netsim_taps "${words[2]}")"
      # Readline puts back what stands before a colon by itself.
      before=${current%"${current##*:}"}
      [[ $COMP_WORDBREAKS != *:* ]] || COMPREPLY=("${COMPREPLY[@]#"$before"}") ;;
  esac
}

complete -F _netsim netsim
