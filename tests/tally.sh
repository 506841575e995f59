# What passed and what failed, for the scripts NAME/run of this folder, which read it in.
passed=0
failed=0

# verdict STATUS NAME: counts it; where the status is not 0 the name is printed. `$?` stands first, since a command in the name sets it.
verdict() {
  if [ "$1" -eq 0 ]; then
    passed=$((passed + 1))
  else
    failed=$((failed + 1))
    echo "$2"
  fi
}

# program NAME COMMAND..: runs a program of tests, which closes with 'N passed, M failed', and adds that up. What else it prints is shown; a
# status that no failed test explains counts as a failure.
program() {
  local status=0 text line bad
  text=$("${@:2}") || status=$?
  line=$(grep -E '^[0-9]+ passed, [0-9]+ failed$' <<<"$text") || line='0 passed, 1 failed'
  grep -vxF "$line" <<<"$text" || true
  bad=${line#*, }
  bad=${bad%% *}
  if [ "$status" -ne 0 ] && [ "$bad" -eq 0 ]; then
    echo "the test $1 ends with status $status"
    bad=1
  fi
  passed=$((passed + ${line%% *}))
  failed=$((failed + bad))
}

# closing: the last line, and the status
closing() {
  echo "$passed passed, $failed failed"
  [ "$failed" -eq 0 ]
}
