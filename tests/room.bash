# For tests to source: a folder of their own that goes when they end, and a count of what is wrong.
room=$(mktemp -d)
trap 'rm -rf "$room"' EXIT
bad=0

wrong() {
  echo "$*"
  bad=$((bad + 1))
}
