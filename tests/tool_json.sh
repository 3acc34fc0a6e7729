# --json: what python3's json reads, held to answers worked out by hand. Sourced by tests/tool.sh.

hostile_house() { # names that would break a careless writer of JSON, of messages or of formats
    printf 'lmax 4\ndevice 1 "\\\\"/</script>&\\u0041\ndevice 2 %%s%%n{}[],:#\ndevice 3 \xf0\x9f\x94\x8a ü \xe2\x80\xae\xe2\x80\xa8\n'
    printf 'device 4\nlink 1 -> 2 length 1\nlink 2 -> 3 length 1\nlink 1 -> 3 length 2\nlink 3 -> 1 length 4\n'
}

keep() { # keep NAME STATUS ARGUMENT..: the JSON of a call, for python; messages only where it is refused
    local name=$1 wanted=$2
    shift 2
    ask "$@" --json
    verdict "zaq $* --json: status $status, not $wanted" test "$status" = "$wanted"
    verdict "zaq $* --json: messages '$(cat "$work/err")'" test "$([ "$wanted" = 0 ] || echo yes)" = "$([ ! -s "$work/err" ] || echo yes)"
    cp "$work/out" "$work/json/$name"
}

keep_all() {
    local command
    hostile_house > "$work/hostile.txt"
    says "from 1 (\"\\\\\"/</script>&\\u0041) to 2 (%s%n{}[],:#): distance 1, first hop 2 (%s%n{}[],:#)
  1 (\"\\\\\"/</script>&\\u0041) -> 2 (%s%n{}[],:#), length 1" routes "$work/hostile.txt" 1 2
    keep check 0 check "$work/hostile.txt"
    keep check_refused 1 check "$work/wrong_arc"
    keep check_text 1 check "$work/wrong.txt"
    keep check_unread 2 check "$work/nothing"
    # a house that is refused or not read has the same object everywhere
    for command in routes run "show $work/p4 --house"; do
        keep refused_elsewhere 1 $command "$work/wrong_arc"
        verdict "zaq $command --json tells a refused house otherwise" cmp -s "$work/json/refused_elsewhere" "$work/json/check_refused"
        keep unread_elsewhere 2 $command "$work/nothing"
        verdict "zaq $command --json tells a missing house otherwise" cmp -s "$work/json/unread_elsewhere" "$work/json/check_unread"
    done
    bad 1 'refused 11: node or target outside 1 to n' routes "$work/q" 4 --json
    bad 2 "$work/nothing: No such file or directory" run "$work/q" "$work/nothing" --json
    bad 2 'check: unknown option --foo' check "$work/q" --json --foo
    keep check_control 1 check "$work/control.txt"
    keep check_empty 1 check "$work/empty"
    keep routes 0 routes "$work/hostile.txt"
    keep route 0 routes "$work/two" 2 1
    keep run 0 run "$work/two" - < <(bytes 0001)
    keep every 0 run "$work/two" "$work/steps" --every 2
    keep show 1 show "$work/p6" "$work/p4" "$work/wrong_file"
    keep show_house 1 show "$work/p6" "$work/wrong_house" --house "$work/q"
    keep show_not_there 2 show "$work/p10" "$work/not"$'\x01"\xff'
}

test_json() {
    if ! command -v python3 > /dev/null; then
        verdict 'JSON cannot be tried: python3 is missing' false
        return
    fi
    mkdir -p "$work/json"
    bytes 124004011121013204 > "$work/wrong_arc"
    printf 'lmax 4\ndevice 1 "\\"\nfoo"\\\xff\n' > "$work/wrong.txt"
    printf '\xef\xbb\xbf# \x0c\nlmax 4\ndevice 1\n' > "$work/control.txt"
    : > "$work/empty"
    bytes 1024888c8441 > "$work/wrong_file"
    bytes 102400 > "$work/wrong_house"
    keep_all
    verdict 'JSON says what it should' python3 - "$work" << 'END'
import json, sys

work = sys.argv[1]
bad = 0


def same(what, got, want):
    global bad
    if got != want:
        print(f"{what}: {got}, not {want}", file=sys.stderr)
        bad = 1


def load(name):
    with open(f"{work}/json/{name}", encoding="utf-8") as file:
        return json.load(file)


def entry(target, state, distance=None, hop=None, **more):
    return {"target": target, "state": state, "distance": distance, "first_hop": hop, **more}


names = ['"\\\\"/</script>&\\u0041', "%s%n{}[],:#", "\U0001f50a ü \u202e\u2028", None]
devices = [{"node": k + 1, "name": name} for k, name in enumerate(names)]
nameless = [{"node": 1, "name": None}, {"node": 2, "name": None}]
same("check", load("check"), {"file": f"{work}/hostile.txt", "accepted": True, "devices": devices, "arcs": 4, "lmax": 4,
    "most_taken": len(devices) + 4 * (len(devices) * 4 + len(devices) + 1)})
same("check of a wrong arc", load("check_refused"), {
    "file": f"{work}/wrong_arc", "accepted": False, "refusal": 8, "words": "two arcs with the same tail and head",
    "arc": {"number": 3, "tail": 1, "head": 2, "length": 3}, "mistakes": [], "mistakes_in_all": 0})
same("check of a wrong text", load("check_text"), {
    "file": f"{work}/wrong.txt", "accepted": False, "refusal": None, "words": "the text has mistakes", "arc": None, "mistakes": [
        {"line": 3, "column": 1, "words": "found 'foo\"\\\\xff', expected lmax, device or link, or a comment after #"}],
    "mistakes_in_all": 1})
same("check of a text with a control byte", load("check_control"), {
    "file": f"{work}/control.txt", "accepted": False, "refusal": 2, "words": "network version not 1, or the fourth field not 0",
    "arc": None, "mistakes": [{"line": 1, "column": 3,
        "words": "found the control byte 0x0c, so the file is read as network bytes, expected none in a house text"}],
    "mistakes_in_all": 1})
same("check of no file", load("check_unread"), {
    "file": f"{work}/nothing", "accepted": False, "refusal": None, "words": "the file could not be read", "arc": None, "mistakes": [],
    "mistakes_in_all": 0})
same("check of nothing", load("check_empty"), {
    "file": f"{work}/empty", "accepted": False, "refusal": None, "words": "the file is empty", "arc": None, "mistakes": [],
    "mistakes_in_all": 0})
# Q with a fourth device that nothing leads to or from: P1 to P3
way = {(1, 2): [1, 2], (1, 3): [1, 2, 3], (2, 1): [2, 3, 1], (2, 3): [2, 3], (3, 1): [3, 1], (3, 2): [3, 1, 2]}
far = {(1, 2): 1, (1, 3): 2, (2, 1): 5, (2, 3): 1, (3, 1): 4, (3, 2): 5}
routes = []
for i in range(1, 5):
    for k in range(1, 5):
        if i == k:
            routes.append(entry(k, "known", 0, 0, **{"from": i, "way": [i]}))
        elif (i, k) in way:
            routes.append(entry(k, "known", far[i, k], way[i, k][1], **{"from": i, "way": way[i, k]}))
        else:
            routes.append(entry(k, "unreachable", **{"from": i, "way": None}))
same("routes", load("routes"), {"devices": devices, "routes": routes})
same("one route", load("route"), {"devices": nameless, "routes": [entry(1, "unreachable", **{"from": 2, "way": None})]})
itself = [entry(k, "known", 0, 0) for k in (1, 2)]
same("run", load("run"), {"steps": 2, "taken": 2, "idle": 0, "unknown": 0, "devices": nameless, "nodes": [
    {"node": 1, "started": True, "stopped": False, "entries": [itself[0], entry(2, "unknown")]},
    {"node": 2, "started": True, "stopped": True, "entries": [entry(1, "unreachable"), itself[1]]}]})
same("run --every", load("every"), {"devices": nameless, "moments": [
    {"steps": 2, "taken": 2, "idle": 0, "unknown": 0, "started": [1, 2], "stopped": [2], "known": [
        {"node": 1, **itself[0]}, {"node": 2, **entry(1, "unreachable")}, {"node": 2, **itself[1]}]},
    {"steps": 4, "taken": 4, "idle": 0, "unknown": 0, "started": [], "stopped": [1], "known": [{"node": 1, **entry(2, "known", 1, 2)}]},
    {"steps": 5, "taken": 4, "idle": 1, "unknown": 0, "started": [], "stopped": [], "known": []}]})
p4 = [itself[0], entry(2, "known", 1, 2), entry(3, "known", 2, 2)]
p6 = p4[:2] + [entry(3, "unknown")]
of_q = {"read": True, "refusal": None, "node": 1, "n": 3, "lmax": 4}
same("show", load("show"), {"devices": None, "files": [
    {"file": f"{work}/p6", **of_q, "end_mark": False, "entries": p6}, {"file": f"{work}/p4", **of_q, "end_mark": True, "entries": p4},
    {"file": f"{work}/wrong_file", "read": True, "refusal": 18, "words": "after the end mark, a bit not 0 or a further byte"}],
    "whole": 1, "without_end_mark": 1, "refused": 1, "not_read": 0})
same("show --house", load("show_house"), {"devices": nameless + [{"node": 3, "name": None}], "files": [
    {"file": f"{work}/p6", **of_q, "end_mark": False, "of_this_house": True, "words": None, "entries": p6},
    {"file": f"{work}/wrong_house", **of_q, "end_mark": True, "of_this_house": False,
        "words": "from 1 to 2 it says unreachable, and the house distance 1 by 2",
        "entries": [itself[0], entry(2, "unreachable"), entry(3, "unreachable")]}],
    "whole": 0, "without_end_mark": 1, "refused": 1, "not_read": 0})
shown = load("show_not_there")
same("a file that is not there", shown["files"][1], {"file": f"{work}/not\x01\"\ufffd", "read": False})
same("the rest of that", (shown["files"][0]["node"], shown["not_read"], shown["whole"]), (2, 1, 1))
sys.exit(bad)
END
}
