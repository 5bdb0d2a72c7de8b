# Judges the result of a run: see judge.sh, which says which cases are wanted.
#
# A result has a line "=== CASE .." for each case. What dom0 says begins with "dom0: ", what a guest says with its name
# in brackets, and what the host says with "[host] ".

# expect(CASE, ECHOES, PINGS, CONNECTIONS, HOSTS): echo runs, lines of answered pings, lines in the tables of the hosts,
# and hosts that end by themselves.
function expect(name, echoes, pings, connections, hosts) {
    expected[name, "echo runs"] = echoes
    expected[name, "pings"] = pings
    expected[name, "connections"] = connections
    expected[name, "hosts"] = hosts
}

BEGIN {
    expect("live", 5, 3, 1, 1)
    expect("reload", 5, 6, 6, 1)
    expect("destroy", 2, 4, 4, 1)
    expect("two", 6, 4, 4, 1)
    expect("halt", 3, 6, 6, 1)
    expect("refuse", 1, 2, 1, 1)
    expect("detach", 1, 2, 2, 1)
    expect("second", 2, 3, 2, 1)
    expect("stop", 2, 3, 2, 2)
    expect("nonsense", 0, 0, 0, 1)
    # What a guest's kernel says when all is well.
    usual = "Grant tables using version|Grant table initialized|Device with no driver: device/vif"
    usual = usual "|Initialising Xen virtual ethernet driver"
    # What an honest guest is answered.
    split("done,empty,waiting,no buffers", names, ",")
    for (i in names) honest[names[i]] = 1
}

# Notes what is wrong with the case, each thing once.
function wrong(what) {
    if (index(complaints[name] ";", " " what ";") == 0) complaints[name] = complaints[name] " " what ";"
}

# Guests of these cases are destroyed with packets in flight: Xen then refuses copies of their pages.
function in_flight() { return name == "destroy" || name == "two" }

# In these a connection ends with frames still waiting for buffers.
function may_drop() { return in_flight() || name == "halt" || name == "stop" }

# What must be refused in a case, exactly so often.
function judge_refusals() {
    if (name == "halt" && !(refused[name, "transmit overflow"] == 1 && refused[name, "receive overflow"] == 1 &&
                            refused[name, "transmit misshapen"] == 1)) wrong("not halted as it must be")
    if (name == "refuse" && !(refused[name, "transmit spoiled (page not granted)"] == 1 &&
                              refused[name, "receive spoiled (page not granted)"] == 2))
        wrong("not refused as it must be")
}

# judge_answers(RING, TEXT): TEXT is "done 12, empty 3, ..".
function judge_answers(ring, text,    parts, i, answer, number) {
    split(text, parts, ", ")
    for (i in parts) {
        number = parts[i]
        sub(/.* /, "", number)
        answer = parts[i]
        sub(/ [0-9]+$/, "", answer)
        if (answer == "nothing" || answer in honest) continue
        refused[name, ring " " answer] += number
        if (name == "halt" && (answer == "overflow" || answer == "misshapen")) continue
        if ((in_flight() || name == "refuse") && answer == "spoiled (page not granted)") continue
        wrong(ring " answered " answer)
    }
}

# judge_finished(TEXT): TEXT is "okay 12, overdue 1, ..", the device's word on packets.
function judge_finished(text,    parts, part, i) {
    split(text, parts, ", ")
    for (i in parts) {
        split(parts[i], part, " ")
        if (part[1] == "okay") finished[name] += part[2]
        else if (part[1] != "nothing") wrong("packets finished: " part[1])
    }
}

# judge_number(WHAT): as many as the case has.
function judge_number(what) {
    if (count[name, what] + 0 != expected[name, what])
        wrong(what ": " count[name, what] + 0 " and not " expected[name, what])
}

function judge_case() {
    if (!(name in seen)) {
        wrong("has not run")
        return
    }
    if (!((name, "hosts") in expected)) wrong("is not known to the judge")
    judge_number("echo runs")
    judge_number("pings")
    judge_number("connections")
    judge_number("hosts")
    judge_refusals()
    # A connection that is halted ends with packets held.
    if (name != "halt" && finished[name] != taken[name]) wrong("packets not finished: " taken[name] - finished[name])
}

# "=== CASE at 12.34 s" and at the end "dom0: done at 56.78 s".
/^=== / || /^dom0: done / { seconds[name] = $4 - begun; begun = $4 }
/^=== / { name = $2; seen[name] = 1 }
/^dom0: done / { ended = 1 }
name == "" { next }
/FAILED/ { line = $0; sub(/.*FAILED:? ?/, "", line); wrong("failed: " line) }
/came back as sent$/ { count[name, "echo runs"]++ }
/^\[[a-z0-9]+\] guest: ping.*(: answered| 0% packet loss)$/ { count[name, "pings"]++ }
/% packet loss/ && !/ 0% packet loss/ { wrong("packets lost") }
/^dom0: host ended with status / { count[name, "hosts"]++; if ($NF != 0) wrong("host ended with status " $NF) }
/Sanitizer|runtime error:/ { wrong("sanitizer") }

# A guest or its kernel says something that is not of the test, nor usual. (Linux tells of a frame that is refused.)
name == "refuse" && /rx->offset: 0, size: (-1|4294967295)$/ { next }
/^\[[a-z0-9]+\] / && !/^\[host\] / && (/ guest: dmesg: / || !/^\[[a-z0-9]+\] (guest|talk): /) && $0 !~ usual {
    line = $0
    sub(/^\[[a-z0-9]+\] (guest: dmesg: )?(\[[ 0-9.]+\] )?/, "", line)
    wrong("guest complains: " line)
}

# The table of a host: a line for each connection, two of answers, and one of the device's words between them.
/^\[host\] ([0-9]+\/[0-9]+|earlier) +[0-9]/ {
    count[name, "connections"]++
    taken[name] += $3
    given[name] += $8
    if ($10 > 0 && !may_drop()) wrong("frames dropped")
    if ($11 > 0 && !in_flight() && name != "refuse") wrong("frames not delivered")
}
/^\[host\]     (transmit|receive): / {
    line = $0
    sub(/^\[host\] +[a-z]+: /, "", line)
    judge_answers(substr($2, 1, length($2) - 1), line)
}
/^\[host\]     finished: / {
    line = $0
    sub(/^\[host\] +finished: /, "", line)
    judge_finished(line)
}

END {
    number = split(wanted, list, " ")
    for (i = 1; i <= number; i++) {
        name = list[i]
        judge_case()
        if (i == number && !ended) wrong("dom0 has not come to its end")
        if (name in complaints) { printf "FAILED %s:%s\n", name, complaints[name]; failed++ }
        else {
            printf "ok %s: %d echo runs and %d pings good, %d connections, %d packets taken, %d frames given, %d s\n",
                name, count[name, "echo runs"], count[name, "pings"], count[name, "connections"], taken[name],
                given[name], seconds[name]
            passed++
        }
    }
    printf "live: %d passed, %d failed\n", passed, failed
    exit failed > 0
}
