# awk -f bench/report.awk COUNTS: the tables of docs/BENCH.md from what bench/run counted. With -v check=1 instead: what is above its limit, a line each,
# and a failure if there is any. A line of COUNTS is a name, what of it, and a value; instructions are "NAME READER-BYTES VALUE". Where the bytes are the
# octets of a timeslot, there is a line for each channel, and the largest value counts. Of sessions the instructions are "NAME HOW VALUE".

# A row: its name, the most instructions a bit (of a timeslot: an octet), those of the library when it first landed (345e7b7), and its title.
function row(name, most, was, words) {
	names[++rows] = name
	limit[name] = most
	first[name] = was
	title[name] = words
}

# A row of sessions: its name, what it is counted for (pages, records or pairs), the most instructions more than without a session, and its title.
function session(name, per, most, words) {
	session_names[++sessions] = name
	pieces[name] = per
	limit[name] = most
	title[name] = words
}

BEGIN {
	row("hr", 5, "14.20", "HR speech")
	row("slips", 5, "14.20", "HR speech with slips")
	row("amr", 6, "20.80", "AMR of mixed modes")
	row("lower", 6.5, "25.44", "AMR of lower speech alone")
	row("errors", 5.5, "15.16", "HR speech with bit errors")
	row("noise", 2, "26.51", "noise")
	row("zeros", 2, "17.00", "all zeros")
	row("ones", 2, "25.99", "all ones")
	row("prefixes", 20, "57.65", "eight zeros and a one everywhere")
	row("dense", 20, "43.66", "near misses, dense")
	row("near", 20, "29.01", "near misses, HR speech")
	row("wrong", 20, "32.76", "HR speech with wrong CRCs")
	row("longtails", 3, "12.01", "HR speech with long tails")
	captures = rows # the rows above are captures harvested by whole pages
	row("record", 30, "14.68", "HR speech by pages of one record")
	row("write", 20, "87.88", "HR speech written back")
	row("write-amr", 25, "101.50", "AMR of mixed modes written back")
	bitwise = rows # the rows above are counted for each bit, those below for each octet of a timeslot, and once for each of its channels
	row("take", 3, "", "a channel taken out")
	row("put", 5, "", "a channel put back")
	for (i = bitwise + 1; i <= rows; i++) channels[names[i]] = 8

	session("session-page", "pages", 100, "a page of 4,096 bytes")
	session("session-record", "records", 100, "a page of one record")
	session("session-open", "pairs", 600, "a session opened and closed")

	# Bytes of stack, and by how many per cent the values for other sizes of captures and timeslots may differ from the value for 65,536.
	stack_limit = 16384
	growth_limit = 5
	capture_sizes = "8192 16384 32768"
	timeslot_sizes = "8192 65535"
}

{ if (!lines[$1, $2]++ || $3 > of[$1, $2]) of[$1, $2] = $3 }

# Instructions for each bit of a capture, or for each octet of a timeslot.
function each(name, reader, bytes) {
	return of[name, reader "-" bytes] / (name in channels ? bytes : 8 * bytes)
}

# Instructions for each page, or each pair of opening and closing: by a session, or alone, without one.
function by(name, how) {
	return of[name, how] / of["session", pieces[name]]
}

function more(name) {
	return by(name, "session") - by(name, "alone")
}

# How many bytes a row is about: what is written back ends with a frame.
function bytes_of(name) {
	return name ~ /^write/ ? 65520 : 65536
}

# By how many per cent the value of so many bytes differs from that of 65,536.
function growth(name, bytes, part) {
	part = each(name, "library", bytes) / each(name, "library", 65536)
	return 100 * (part > 1 ? part - 1 : 1 - part)
}

function most_growth(from, to, sizes, i, j, n, size, most) {
	n = split(sizes, size)
	for (i = from; i <= to; i++)
		for (j = 1; j <= n; j++)
			if (growth(names[i], size[j]) > most) most = growth(names[i], size[j])
	return most
}

function capture_growth() {
	return most_growth(1, captures, capture_sizes)
}

function timeslot_growth() {
	return most_growth(bitwise + 1, rows, timeslot_sizes)
}

function above(what, value, most, unit) {
	if (value <= most) return
	printf "bench: %s: %.6g %s, at most %s allowed\n", what, value, unit, most
	failed = 1
}

# What was not counted would be 0, and pass.
function check_counted(what, name, key) {
	if (lines[name, key] == (name in channels ? channels[name] : 1)) return
	printf "bench: %s: not counted\n", what
	failed = 1
}

function check_row(name) {
	check_counted(title[name], name, "library-" bytes_of(name))
	above(title[name], each(name, "library", bytes_of(name)), limit[name], "instructions " (name in channels ? "an octet" : "a bit"))
}

function check_session(name) {
	check_counted("sessions, " title[name], "session", pieces[name])
	check_counted("sessions, " title[name], name, "session")
	if (name != "session-open") check_counted("sessions, " title[name] " alone", name, "alone")
	above("sessions, " title[name], more(name), limit[name], "instructions more")
}

function check_stack(call) {
	check_counted("stack of " call, "stack", call)
	above("stack of " call, of["stack", call], stack_limit, "bytes")
}

function check_all(i) {
	for (i = 1; i <= rows; i++) check_row(names[i])
	for (i = 1; i <= sessions; i++) check_session(session_names[i])
	above("growth", capture_growth(), growth_limit, "% off the 64 KiB value")
	above("growth of a timeslot", timeslot_growth(), growth_limit, "% off the value for 65,536 octets")
	check_stack("paging")
	check_stack("writing")
	check_stack("taking")
	check_stack("putting")
	check_stack("opening")
	check_stack("session")
	check_stack("closing")
	exit failed
}

# Instructions a bit or an octet as the tables show them. Those of Osmocom's libraries differ a little from run to run, in the third decimal.
function shown(name, reader, bytes) {
	if (!((name, reader "-" bytes) in of)) return "not had"
	return sprintf(reader == "osmo" ? "%.1f" : "%.2f", each(name, reader, bytes))
}

function capture_row(name, frames) {
	frames = (name, "handed") in of ? of[name, "whole"] " of " of[name, "handed"] : "not had"
	printf "| %s | %s | %s | %s | %s | %s | %s | %s | %s |\n", title[name], of[name, "frames"], of[name, "gaps"], shown(name, "library", 65536),
		first[name], limit[name], shown(name, "plain", 65536), shown(name, "osmo", 65536), frames
}

function other_row(name) {
	printf "| %s | | | %s | %s | %s | | | |\n", title[name], shown(name, "library", bytes_of(name)), first[name], limit[name]
}

function channel_row(name) {
	printf "| %s | %s | %s | %s | %s | %s | %s |\n", title[name], shown(name, "library", 65536), limit[name], shown(name, "plain", 65536),
		shown(name, "osmo", 65536), shown(name, "library", 8192), shown(name, "library", 65535)
}

function harvests(i, records) {
	print "# How fast\n"
	print "Made by `bench/run --write`; not to be edited. The numbers are counted x86-64 instructions for each bit of the capture. Nothing is timed, and"
	print "the library's numbers are the same on every machine. A capture has 65,536 bytes, downlink, and is harvested whole by pages of 4,096 bytes, the"
	print "count of items unlimited, but for the last three rows. `bench/run --check` fails where the library is above a limit.\n"
	print "| Capture | Frames | Gaps | Bellrope | First landing | Limit | Plain C | libosmotrau | Its frames |"
	print "|---|---:|---:|---:|---:|---:|---:|---:|---:|"
	for (i = 1; i <= captures; i++) capture_row(names[i])
	for (; i <= bitwise; i++) other_row(names[i])
	print ""
	print "- First landing: the library when it first landed (345e7b7), counted in the same way."
	print "- Start-up is not in the numbers: they are two harvests less one."
	print "- Slips: one frame in eight has a tail of 0, 1, 3, 4 or 8. AMR: kind 6 in each of its three modes, kinds 5, 7 and 8, all as likely; lower speech"
	print "  alone: kind 6 in each of its three modes. Bit errors: one bit in 1,000 is turned over."
	print "- Four captures have no frame that starts a run, and much that must be looked at to tell. Eight zeros and a one, with which every such frame begins,"
	print "  begin at one place in nine. Near misses, dense: at two places in 33 all 17 bits hold that are fixed alike in the patterns of HR, Low and 6,70. Near"
	print "  misses, HR speech: of each frame only the last fixed bit is wrong. Wrong CRCs: of each frame only the CRC is wrong."
	print "- Long tails: each frame is followed by 32,610 ones."
	records = of["hr", "frames"] + of["hr", "gaps"]
	printf "- A page of one record (the capture of the first row, asked for with a count of 1) takes %d instructions; a record of a whole page takes %d.\n",
		of["record", "library-65536"] / records, of["hr", "library-65536"] / records
	print "  What is worked out once a call, the masks of the covered lists and the runs of the D table, is then paid by each record: ask for large pages."
	print "- Written back are the 3,276 whole frames of the HR and of the AMR row, page by page."
	printf "- Plain C is bench/plain.c, compiled by %s with -O2. It does the same work bit by bit, as one would write it from the specification.\n",
		of["plain", "compiler"]
	print "  Each run compares its pages with the library's: they are the same, byte for byte."
	if (("osmo", "frames") in of) {
		printf "- libosmotrau is Debian's package, version %s. It only finds frames: it is told one pattern (HR; for AMR, Low) and looks for that\n",
			of["osmo", "frames"]
		print "  alone, checks no CRC, knows no tail and writes no record. It takes a byte for each bit, and making that of the capture is not counted. Of the"
		print "  frames that it hands out not all need have the fixed bits of the pattern; the last column says how many do."
		printf "  Its decoder, called for each, takes %d of the %d in the first row.\n", of["hr", "decoded"], of["hr", "handed"]
	} else
		print "- libosmotrau could not be had where this was made."
}

function growths(i) {
	print "\n## Growth\n"
	printf "Bellrope on the first bytes of each capture. A cost linear in the bits shows as equal numbers: the largest difference from the value for 64 KiB\n"
	printf "is %.2f %%, %s %% being allowed.\n\n", capture_growth(), growth_limit
	print "| Capture | 8 KiB | 16 KiB | 32 KiB | 64 KiB |"
	print "|---|---:|---:|---:|---:|"
	for (i = 1; i <= captures; i++)
		printf "| %s | %s | %s | %s | %s |\n", title[names[i]], shown(names[i], "library", 8192), shown(names[i], "library", 16384),
			shown(names[i], "library", 32768), shown(names[i], "library", 65536)
}

function timeslots(i) {
	print "\n## A channel of a timeslot\n"
	print "Here the numbers are counted x86-64 instructions for each octet of a timeslot, which has 65,536 but for the last two columns. Each of the eight"
	print "channels is counted, and the largest number shown. A cost linear in the octets shows as equal numbers, also where the channel's last byte is"
	printf "partly filled (65,535 octets): the largest difference from the value for 65,536 is %.2f %%, %s %% being allowed.\n\n", timeslot_growth(),
		growth_limit
	print "| Call | Bellrope | Limit | Plain C | libosmogsm | 8,192 octets | 65,535 octets |"
	print "|---|---:|---:|---:|---:|---:|---:|"
	for (i = bitwise + 1; i <= rows; i++) channel_row(names[i])
	print ""
	print "- Start-up is not in the numbers: they are two calls less one."
	print "- Octets and bytes put back are noise."
	print "- Plain C is bench/plain_channel.c, compiled as bench/plain.c is. It goes octet by octet, a bit of each."
	if (("osmo", "channel") in of) {
		printf "- libosmogsm is Debian's package libosmocore, version %s; its channels are the sub-channels of ITU-T I.460. It makes whole timeslots and\n",
			of["osmo", "channel"]
		print "  changes none: to put a channel back, all eight are taken out and the timeslot is made anew."
	} else
		print "- libosmogsm could not be had where this was made."
	print "- Each run compares what these leave of buffer and timeslot with what the library does, for each channel and each number of bits in the last"
	print "  byte: they are the same, byte for byte."
}

function session_row(name) {
	printf "| %s |", title[name]
	if (name == "session-open") printf " | | |"
	else printf " %d | %.0f | %.0f |", of["session", pieces[name]], by(name, "session"), by(name, "alone")
	printf " %.0f | %s |\n", more(name), limit[name]
}

function session_table(i) {
	print "\n## Sessions\n"
	print "Here the numbers are counted x86-64 instructions for each page: by a session, in the last place of a full list of 32, and by `bellrope_page`"
	print "alone. The limit is on what a session costs more. Its opening, where only the last place is free, and its closing are counted together.\n"
	print "| Call | How many | By a session | Alone | More | Limit |"
	print "|---|---:|---:|---:|---:|---:|"
	for (i = 1; i <= sessions; i++) session_row(session_names[i])
	print ""
	print "- Start-up is not in the numbers: they are two harvests less one, or two pairs less one."
	print "- The capture is that of the first row. Each run compares the pages of the two: they are the same, byte for byte."
}

function stacks() {
	print "\n## Stack\n"
	printf "Paging took %d bytes of stack and writing %d, taking a channel out %d and putting one back %d, opening a session %d, paging by one %d\n",
		of["stack", "paging"], of["stack", "writing"], of["stack", "taking"], of["stack", "putting"], of["stack", "opening"], of["stack", "session"]
	printf "and closing it %d, %d being allowed. They ran on stacks painted before, paging and writing with these captures and those of tests/list,\n",
		of["stack", "closing"], stack_limit
	print "and so far down the paint was gone."
}

function tables() {
	harvests()
	growths()
	timeslots()
	session_table()
	stacks()
}

END {
	if (check) check_all()
	else tables()
}
