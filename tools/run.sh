# Runs the program `name` with the caller's words, in the caller's folder: for the scripts of these names, which name
# their folder in `root`. Which build runs is chosen by `choose_build`. Where it is not the proved one, a line on standard
# error says so.
source "$root/tools/program.sh"
choose_build "$name"
if [[ $built != "$proved_program" ]]; then
    tell "this program is checked as it runs, and not proved: $root/prove proves it"
fi
# Under a name that is plain text wherever this folder stands
exec -a "$name" "$built" "$@"
