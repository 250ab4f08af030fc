# What the scripts named psi share: `./psi` of a checkout and the `psi` that a release installs.
# They set `tools`, the folder of the tools; `doc`, that of README.md, CITATION.cff and docs;
# `place`, the section of help.txt on the script itself; and `program`, the proved program.

# Prints the lines of help.txt above its sections, and the sections on the script and the guides.
# With the name of a command it prints its usage lines and its section, and fails if there is none.
help_on() {
    awk -v name="${1-}" -v place="$place" -v doc="$(CDPATH= cd -- "$doc" && pwd)" '
        # One empty line stands between two parts, and none at the ends.
        function show(line) {
            if (line == "") { gap = shown; return }
            if (gap) print ""
            gap = 0
            shown = 1
            gsub(/@DOC@/, doc, line)
            print line
        }
        /^== / { section = $2; next }
        name == "" && (section == "" || section == place || section == "guides") { show($0) }
        section == "" && /:$/ { block = $1 }
        name != "" && section == "" && block == "Commands:" && /^  / && $1 == name {
            sub(/^  /, "")
            sub(/  +.*/, "")
            show((found++ ? "       " : "Usage: ") "psi " $0)
        }
        found && section == name { show($0) }
        END { exit name != "" && !found }
    ' "$tools/command/help.txt" 2>/dev/null
}

print_version() {
    sed -n 's/^version: "\(.*\)"$/psi \1/p' "$doc/CITATION.cff"
}

# Ends with the number of the first argument that is wrong, as the program does.
stop_at() {
    echo "psi: usage word $1" >&2
    exit 2
}

# Answers the arguments that are the script's own, and returns where they are the program's.
answer_alone() {
    case ${1-} in
    -h | --help | --version) [ "$#" -eq 1 ] || stop_at 2 ;;
    help) [ "$#" -le 2 ] || stop_at 3 ;;
    *) return 0 ;;
    esac
    case $1 in
    --version) print_version ;;
    *) help_on "${2-}" ;;
    esac
    case $?:$# in
    0:*) exit 0 ;;
    1:2) stop_at 2 ;;
    *) exit 7 ;;
    esac
}

# Runs the program. Where it refuses a file and standard error is a terminal, the lines below its
# own say where the fault is and what helps.
run() {
    [ -t 2 ] && [ -e /proc/self/fd/1 ] || exec "$program" "$@"
    { line=$("$program" "$@" 2>&1 >&3 3>&-); } 3>&1
    status=$?
    [ -z "$line" ] || printf '%s\n' "$line" >&2
    case $status in
    3 | 4) python3 "$tools/command/refusal.py" "$line" "$@" 1>&2 2>/dev/null ;;
    esac
    exit "$status"
}
