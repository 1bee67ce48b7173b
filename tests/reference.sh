# For the checks that compare with a reference program, of which tools/reference.py knows.

# compare_with_reference CHECK PROGRAM: the script of that name in tests/ compares a program with the recorded corpus,
# and with the reference too where there is one.
compare_with_reference() {
  local show folder
  show=$(bash tools/built.sh "$2")
  if ! folder=$(python3 tools/reference.py 2>&1); then
    echo "$1: the corpus alone, since $folder"
    folder=
  fi
  python3 "tests/$1.py" "$show" ${folder:+"$folder"} | sed "s/^/$1: /"
}
