#!/bin/sh
# tests/model/mutants.sh [CALLS] [WORDS]: breaks a copy of the model in many ways, one at a time; the comparison must notice each, without the help of the
# model's checks of itself. With WORDS, only the ways that have them in their name. Run tests/compare first: it builds the client. It takes some minutes
# and is no part of the gate.
set -eu
cd "$(dirname "$0")/../.."
client=target/client/run
calls=${1:-20000}
only=${2:-}
copy=target/mutants/model
log=target/mutants/log
if [ ! -x "$client" ]; then
	echo "mutants: there is no $client; run tests/compare first." >&2
	exit 2
fi
mkdir -p target/mutants
export CARGO_TARGET_DIR="$PWD/target/mutants/build"
export CARGO_PROFILE_RELEASE_OPT_LEVEL=1

# mutant NAME FILE SED: the copy with one file changed must differ from the library.
noticed=0
missed=0
mutant() {
	case $1 in *"$only"*) ;; *) return ;; esac
	rm -rf "$copy"
	cp -R tests/model "$copy"
	sed -i "$3" "$copy/src/$2"
	if cmp -s "tests/model/src/$2" "$copy/src/$2"; then
		echo "mutants: '$1' changes nothing in $2: mend its sed." >&2
		exit 2
	fi
	if ! (cd "$copy" && cargo build --release --offline --quiet) >"$log" 2>&1; then
		tail -n 20 "$log" >&2
		echo "mutants: '$1' does not build: mend its sed." >&2
		exit 2
	fi
	if "$CARGO_TARGET_DIR/release/model" compare --calls "$calls" --seed 7 --no-own-checks --client "$client" >"$log" 2>&1; then
		status=0
	else
		status=$?
	fi
	if [ "$status" -eq 1 ] && grep -q DIFFERENCE "$log"; then
		noticed=$((noticed + 1))
		echo "noticed: $1 ($(grep -o 'call [0-9]* of' "$log" | head -n 1 | tr -d a-z\ ) calls)"
	else
		missed=$((missed + 1))
		echo "MISSED: $1 (status $status)"
	fi
}

# Frames, readings, records and pages.
mutant "parity of C even" frame.rs 's/crc::odd(&c\[..5\])/!&/'
mutant "parity of XC even" frame.rs 's/crc::odd(xc)/!&/'
mutant "C4 of zero in uplink" frame.rs 's/direction != UPLINK || c4;/c4 || !c4;/'
mutant "reserved XC 4..7 in uplink" frame.rs 's/0..=3 | 8..=15/0..=15/'
mutant "any C1..C3 in kind 5" frame.rs 's/5 => !c\[3\] \&\& !c\[4\] \&\&.*/5 => !c[3] \&\& !c[4],/'
mutant "a body may not reach n" frame.rs 's/end > capture.n()/end >= capture.n()/'
mutant "a tail one short" frame.rs 's/take_while(|bit| \*\*bit).count()/&.saturating_sub(1)/'
mutant "C3 of 7,40 one place on" layouts.txt 's/C1 C2 C3 D13 D14/C1 C2 D13 C3 D14/'
mutant "remainder 0" crc.rs 's/^const REMAINDER.*/const REMAINDER: [bool; 3] = [false; 3];/'
mutant "divisor X^3 + X^2 + 1" crc.rs 's/\[true, false, true, true\]/[true, true, false, true]/'
mutant "T2 of a configuration frame not demanded" kinds.rs 's/\[2, 2\]/[1, 1]/'
mutant "least tail of kind 1 down" kinds.rs '0,/(158, \[1, 0\], 2)/s//(158, [1, 1], 2)/'
mutant "4,75 CRC1 without s18" kinds.rs 's/s16 s18 s19/s16 s19/'
mutant "4,75 CRC4 with s85" kinds.rs 's/s83 s84 D113/s83 s85 D113/'
mutant "5,15 CRC4 one s early" kinds.rs 's/s99..s103/s98..s102/'
mutant "6,70 without D24" kinds.rs 's/D20 D24 D27/D20 D27/'
mutant "mode two frames old" reading.rs 's/self.cursor = item.after();/let old = self.cursor.context; &if item.kind() == 6 \&\& self.cursor.context == 2 { self.cursor.context = old.max(2); }/'
mutant "no mode from the context" frame.rs 's/(6, 0, 4) => 2/(6, 0, 4) => 0/'
mutant "verdict's mode bits" frame.rs 's/(self.mode(context) as u8) << 4/(self.mode(context) as u8) << 5/'
mutant "verdict's CRC bits" frame.rs 's/verdict |= 1 << i/verdict |= 8 >> i/'
mutant "7,40 opens a run" frame.rs 's/self.kind != 8 \&\& all_right/all_right/'
mutant "an unchecked kind 6 opens a run" frame.rs 's/all_right \&\& !unchecked_6/all_right \&\& (!unchecked_6 || unchecked_6)/'
mutant "kind 5 opens no run" frame.rs 's/let unchecked_6 = .*/let unchecked_6 = self.unchecked(profile, 0);/'
mutant "7,40 follows HR" frame.rs 's/8 => context >= 2/8 => context >= 1/'
mutant "context after 5,15" frame.rs 's/(6, 2) => 4/(6, 2) => 2/'
mutant "gap ends at a wrong CRC" reading.rs 's/is_some_and(|frame| frame.starts_run(profile))/is_some_and(|frame| frame.kind != 8)/'
mutant "gaps of whole octets" reading.rs 's/(start + 1..n).find/(start + 8..n).step_by(8).find/'
mutant "context after a gap" reading.rs '/pub fn after/,/^    }/s/=> 0,/=> 2,/'
mutant "D bits from the other end" record.rs 's/pack(&frame.d())/pack(\&frame.d()).into_iter().map(u8::reverse_bits)/'
mutant "control with C5" record.rs 's/&c\[5..9\]/\&c[4..8]/'
mutant "numbers low byte first" record.rs 's/to_be_bytes/to_le_bytes/'
mutant "buffer fit off by one" page.rs 's/record.len() > request.buffer.len()/record.len() >= request.buffer.len()/'
mutant "one item too many" page.rs 's/as u64 == request.most/as u64 == request.most.saturating_add(1)/'
mutant "cursor at n refused" page.rs 's/request.position > request.n/request.position >= request.n/'
mutant "65,536 bytes refused" page.rs 's/length > LONGEST/length >= LONGEST/'
mutant "refusals in the other order" page.rs 's/cause.number()).min()/cause.number()).max()/'
mutant "numbers of 32 bits" page.rs 's/request.context > 5/request.context as u32 > 5/'
# Silence frames by the profile.
mutant "D10 on top of the class" frame.rs 's/number(&self.d()\[7..10\])/self.d()[7..10].iter().rev().fold(0, |sum, \&bit| 2 * sum + usize::from(bit))/'
mutant "the profile from its top bit on" frame.rs 's/profile >> self.class() & 1/profile >> (7 - self.class()) \& 1/'
mutant "silence CRC without C1..C5" kinds.rs 's/(5, 1, "C1..C5 D1/(5, 1, "D1/'
mutant "silence CRC without D51" kinds.rs 's/D1..D51 D52/D1..D50 D52/'
mutant "a checked silence frame called unchecked" frame.rs 's/5 => !self.carries(profile)/5 => true/'
mutant "a wrong silence frame opens a run" frame.rs 's/let all_right = /let all_right = self.kind == 5 || /'
mutant "a wrong silence frame ends a run" reading.rs 's/_ => frame.follows(context)/_ => frame.follows(context) \&\& (frame.kind != 5 || frame.starts_run(self.capture.terms.profile))/'
mutant "paging by profile 0" page.rs 's/profile: request.profile/profile: 0/'
mutant "writing by profile 0" write.rs 's/profile: self.profile/profile: 0/'
# Captures that grow.
mutant "growing: a bit behind n looked at" capture.rs 's/bits.truncate(n)/bits.truncate(n + 1)/'
mutant "growing: a look at one bit more" requests.rs 's/self.capture.bits\[..n\]/self.capture.bits[..(n + 1).min(self.capture.bits.len())]/'
mutant "growing: bits before n changed between looks" requests.rs '/pub fn cut/,/^    }/s/garbage(rng, &mut bytes, n)/garbage(rng, \&mut bytes, n.saturating_sub(8))/'
mutant "growing: the last item kept" compare_growth.rs 's/reply.answer.items - 1;/reply.answer.items;/'
mutant "growing: two items left out" compare_growth.rs 's/reply.answer.items - 1;/reply.answer.items - 2;/'
mutant "growing: a tail that reached n does not go on" compare_growth.rs 's/reply.answer.items - 1;/reply.answer.items - u64::from(harvest.left.as_ref().is_some_and(|item| item.kind() == 0));/'
mutant "growing: a gap that reached n does not change" compare_growth.rs 's/reply.answer.items - 1;/reply.answer.items - u64::from(harvest.left.as_ref().is_some_and(|item| item.kind() != 0));/'
mutant "growing: the cursor behind a single item kept" compare_growth.rs 's/if reply.answer.items > 1 {/if reply.answer.items == 1 { harvest.keep(rng, request, reply); } else &/'
mutant "growing: the context of the kept cursor lost" compare_growth.rs 's/context: answer.context/context: 0/'
mutant "growing: a kept page asked with n before its end" compare_growth.rs '/fn ask_kept/,/^    }/s/n: now.capture.n() as u64/n: reply.answer.position - 1/'
mutant "growing: a tail that goes on is another frame" growth.rs 's/if longer \&\& \*last ==/if !longer \&\& *last ==/'
# Writing: the numbers of a request.
mutant "65,536 bytes of records refused" write.rs 's/records.len() > MOST/records.len() >= MOST/'
mutant "65,536 bytes of writing buffer refused" write.rs 's/buffer.len() > LONGEST/buffer.len() >= LONGEST/'
mutant "cursor at the end of the buffer refused" write.rs 's/request.position > bits/request.position >= bits/'
mutant "writing: position of 32 bits" write.rs 's/request.position > bits/request.position as u32 as u64 > bits/'
mutant "writing: context of 32 bits" write.rs 's/request.context > 5/request.context as u32 > 5/'
# Writing: what an answer says.
mutant "3 before 1 and 2" causes.rs 's/\[1, 2, 3, 5, 6, 4\]/[3, 1, 2, 5, 6, 4]/'
mutant "6 before 5" causes.rs 's/\[1, 2, 3, 5, 6, 4\]/[1, 2, 3, 6, 5, 4]/'
mutant "4 before 6" causes.rs 's/\[1, 2, 3, 5, 6, 4\]/[1, 2, 3, 5, 4, 6]/'
mutant "4 before 5" causes.rs 's/\[1, 2, 3, 5, 6, 4\]/[1, 2, 3, 4, 5, 6]/'
mutant "5 of a later record before 4" write.rs '/let causes = judge/a if first(\&causes) == Some(4) { let next = \&rest[length(rest[0] as usize)..]; if next.first().is_some_and(|kind| *kind > 8) { return refusal(request, 1 + frames.len() as u64, vec![Cause::UnknownKind]); } }'
mutant "index from 1" write.rs 's/refusal(request, frames.len() as u64,/refusal(request, frames.len() as u64 + 1,/'
mutant "no index" write.rs 's/refusal(request, frames.len() as u64,/refusal(request, 0,/'
mutant "a refusal answers the cursor reached" write.rs 's/return refusal(request, frames/let position = cursor.position as u64; let request = \&Request { position, ..request.clone() }; &/'
mutant "sound records before a refusal written" write.rs 's/return \(refusal(request, frames.*causes)\);/return Written { buffer: pack(\&bits), ..\1 };/'
mutant "writing answers bytes" write.rs 's/bytes: 0,/bytes: request.records.len() as u64,/'
# Writing: which records are sound.
mutant "a gap is 6" causes.rs 's/(Cause::Gap, 5)/(Cause::Gap, 6)/'
mutant "a record one byte short is 4" causes.rs 's/(Cause::OneByteShort, 5)/(Cause::OneByteShort, 4)/'
mutant "a bit of control unjudged" judge.rs 's/5 | 6 => 0x07/5 | 6 => 0x03/'
mutant "a bit of extended unjudged" judge.rs 's/3 => 0x07/3 => 0x05/'
mutant "only the first bit of padding judged" judge.rs 's/fields.padding.contains(&true)/fields.padding.first() == Some(\&true)/'
mutant "configuration with C4 of zero written in uplink" judge.rs 's/number <= 4 \&\& up/number <= 3 \&\& up/'
mutant "No_Speech of 101 refused" judge.rs 's/\[0b100, 0b101\]/[0b100]/'
mutant "No_Speech with C5 written" judge.rs 's/(c4 || c5_of_low)/c4/'
mutant "lower speech without C4 refused" judge.rs 's/number == 6 \&\& !c4 \&\& !c5_of_low/number == 6 \&\& !c4/'
mutant "reserved XC written in uplink" judge.rs 's/0..=3 | 8..=15/0..=15/'
mutant "reserved XC written in downlink" judge.rs 's/(xc, 0 | 2)/(xc, 0..=2)/'
mutant "XC of O&M unjudged in its last bit" judge.rs 's/xc != 31/xc < 30/'
mutant "least tail of the other direction" judge.rs 's/least_tail\[direction\]/least_tail[1 - direction]/'
# Writing: which frames are due.
mutant "start judged under 5" causes.rs 's/(Cause::Start, 6)/(Cause::Start, 5)/'
mutant "verdict judged under 5" causes.rs 's/(Cause::Verdict, 6)/(Cause::Verdict, 5)/'
mutant "bit 6 of the verdict unjudged" judge.rs 's/fields.verdict != verdict/fields.verdict \& 0xBF != verdict/'
mutant "a lower frame with a wrong CRC starts a run" judge.rs 's/searching \&\& wrong)/searching \&\& wrong \&\& number != 6)/'
mutant "an unchecked kind 6 starts a run" judge.rs 's/searching \&\& unchecked_6)/searching \&\& unchecked_6 \&\& number == 5)/'
mutant "an unchecked kind 5 starts none" judge.rs 's/let unchecked_6 = .*/let unchecked_6 = frame.unchecked(profile, 0);/'
mutant "7,40 written after HR" judge.rs 's/cursor.context == 1 \&\& number == 8/cursor.context == 6 \&\& number == 8/'
mutant "context of the first record for all" write.rs 's/context: frame.context_after()/context: cursor.context.max(1)/'
mutant "writing in steps of 160 bits" write.rs 's/position: frame.end()/position: frame.start + 160/'
mutant "a frame may not end where the buffer does" judge.rs 's/frame.end() > bits/frame.end() >= bits/'
mutant "a huge tail is 5" causes.rs 's/(Cause::HugeTailPastBuffer, 4)/(Cause::HugeTailPastBuffer, 5)/'
# Writing: the bits.
mutant "tail of zeros" write.rs 's/fill(true)/fill(false)/'
mutant "bit behind the tail cleared" write.rs 's/^ *bits\[tail..frame.end()\].fill(true);/& if let Some(bit) = bits.get_mut(frame.end()) { *bit = false; }/'
mutant "C5 and XC6 even" fields.rs 's/ones % 2 == 0/ones % 2 == 1/'
mutant "XC6 of zero" fields.rs 's/let xc6 = .*/let xc6 = false;/'
mutant "C6..C9 in the other order" fields.rs 's/&control\[4..\]\]/\&[control[7], control[6], control[5], control[4]]]/'
mutant "CRC of kind 1 lost" fields.rs 's/1 => unpack(&\[self.extended\])\[5..\].to_vec()/1 => vec![false; 3]/'
mutant "writing: numbers low byte first" fields.rs '/^fn four/,/^}/s/\.iter()/.iter().rev()/'
mutant "D bits one place on" fields.rs 's/put(&mut body, &kind.d, &self.d)/let mut d = self.d.clone(); d.rotate_right(1); put(\&mut body, \&kind.d, \&d)/'
# Channels of a timeslot.
mutant "timeslot: a channel counted from the low bit" timeslot.rs 's/channel as usize - 1/8 - channel as usize/'
mutant "timeslot: channel 0 taken for 1" timeslot.rs 's/(1..=8)/(0..=8)/; s/channel as usize - 1/channel.max(1) as usize - 1/'
mutant "timeslot: channel 9 taken" timeslot.rs 's/(1..=8)/(1..=9)/; s/channel as usize - 1/(channel as usize - 1) % 8/'
mutant "timeslot: a channel of 32 bits" timeslot.rs 's/contains(&request.channel)/contains(\&(request.channel as u32))/; s/channel as usize/channel as u32 as usize/'
mutant "timeslot: 65,536 octets refused" timeslot.rs 's/octets > OCTETS_MOST/octets >= OCTETS_MOST/'
mutant "timeslot: 65,537 octets taken" timeslot.rs 's/octets > OCTETS_MOST/octets > OCTETS_MOST + 1/'
mutant "timeslot: bytes needed rounded down" timeslot.rs 's/< needed(octets)/< octets \/ 8/'
mutant "timeslot: one byte too many asked for" timeslot.rs 's/< needed(octets)/<= needed(octets)/'
mutant "timeslot: no octets refused" timeslot.rs 's/octets > OCTETS_MOST/octets == 0 || &/'
mutant "timeslot: 2 before 7" timeslot.rs 's/\[7, 2, 4\]/[2, 7, 4]/'
mutant "timeslot: 4 before 2" timeslot.rs 's/\[7, 2, 4\]/[7, 4, 2]/'
mutant "timeslot: 4 before 7" timeslot.rs 's/\[7, 2, 4\]/[4, 7, 2]/'
mutant "timeslot: a refused call changes what is lent" timeslot.rs 's/if refusals.is_empty()/if !refusals.contains(\&7)/'
mutant "timeslot: the low bit of a byte first" timeslot.rs 's/zip(pack(&channel))/zip(pack(\&channel).into_iter().map(u8::reverse_bits))/'
mutant "timeslot: a last byte partly filled keeps what it had below" timeslot.rs 's/pack(&channel)/pack(\&[\&channel[..], \&unpack(\&request.bytes)[channel.len()..8 * needed(channel.len())]].concat())/'
mutant "timeslot: the rest of the buffer cleared" timeslot.rs 's/for (byte, taken)/after.fill(0); &/'
mutant "timeslot: another channel's bit changed" timeslot.rs 's/^ *bits\[place(i, request.channel)\] = bit;/& bits[8 * i + request.channel as usize % 8] = bit;/'
mutant "timeslot: the last octet not put back" timeslot.rs 's/take(bits.len() \/ 8)/take((bits.len() \/ 8).saturating_sub(1))/'
mutant "timeslot: put back with another last bit" compare_timeslot.rs 's/garbage(rng, &mut bytes, request.timeslot.len())/garbage(rng, \&mut bytes, request.timeslot.len().saturating_sub(1))/'
mutant "timeslot: another channel taken than was put" compare_timeslot.rs 's/channel: request.channel,/channel: request.channel % 8 + 1,/'
mutant "timeslot: one channel put twice in either order" compare_timeslot.rs 's/channel: 1 + (one.channel + rng.below(7) as u64) % 8/channel: one.channel/'
mutant "timeslot: the next channel harvested" compare_timeslot.rs 's/channel: 1 + channel as u64/channel: 1 + (channel as u64 + 1) % 8/'
# Sessions.
mutant "sessions: the highest free place opened" sessions.rs 's/position(Session::free)/rposition(Session::free)/'
mutant "sessions: a place closed is never taken again" sessions.rs 's/request.with(Session::default())/request.with(Session { used: 1, ..Session::default() })/'
mutant "sessions: the old cursor left at opening" sessions.rs '/^pub fn open/,/^}/{s/position: 0,/position: after[place].position,/; s/context: 0,/context: after[place].context,/}'
mutant "sessions: the capture's number not kept" sessions.rs '/^pub fn open/,/^}/s/capture: request.capture,/capture: 0,/'
mutant "sessions: a refused opening answers a place" sessions.rs 's/opened(\*number.expect("a number"), 0)/opened(*number.expect("a number"), free.unwrap_or(0) as u64)/'
mutant "sessions: 8 before 9" sessions.rs 's/\[2, 1, 9, 8\]/[2, 1, 8, 9]/'
mutant "sessions: 9 before 1" sessions.rs 's/\[2, 1, 9, 8\]/[2, 9, 1, 8]/'
mutant "sessions: 1 before 2" sessions.rs 's/\[2, 1, 9, 8\]/[1, 2, 9, 8]/'
mutant "sessions: a key in a free place is present" sessions.rs 's/any(|s| s.holds(request.key))/any(|s| s.key == request.key)/'
mutant "sessions: 0 is no key" sessions.rs 's/any(|s| s.holds(request.key))/any(|s| s.holds(request.key)) || request.key == 0/'
mutant "sessions: a list of 32 not opened" sessions.rs 's/request.sessions.len() > PLACES_MOST/request.sessions.len() >= PLACES_MOST/'
mutant "sessions: a list of 33 opened" sessions.rs 's/request.sessions.len() > PLACES_MOST/request.sessions.len() > PLACES_MOST + 1/'
mutant "sessions: a list of 32 refused to paging and closing" sessions.rs 's/self.sessions.len() > PLACES_MOST/self.sessions.len() >= PLACES_MOST/'
mutant "sessions: a list of 33 paged and closed" sessions.rs 's/self.sessions.len() > PLACES_MOST/self.sessions.len() > PLACES_MOST + 1/'
mutant "sessions: used only where it is 1" sessions.rs 's/self.used == 0/self.used != 1/'
mutant "sessions: used of 32 bits" sessions.rs 's/self.used == 0/self.used as u32 == 0/'
mutant "sessions: a key of 32 bits at opening" sessions.rs 's/self.key == key/self.key as u32 == key as u32/'
mutant "sessions: a key of 32 bits" sessions.rs 's/session.key != self.key/session.key as u32 != self.key as u32/'
mutant "sessions: a place of 32 bits" sessions.rs 's/usize::try_from(self.place).ok()?/self.place as u32 as usize/; s/self.place as usize/self.place as u32 as usize/'
mutant "sessions: a direction of 32 bits" sessions.rs 's/request.direction > 1/request.direction as u32 > 1/'
mutant "sessions: 2 for the list after 10" sessions.rs 's/too_long.into_iter().chain(absent)/absent.into_iter().chain(too_long)/'
mutant "sessions: 10 after paging's numbers" sessions.rs 's/Answer::alone(cause.number()),/match (cause.number(), page.answer.number) { (10, 1..) => page.answer, _ => Answer::alone(cause.number()) },/'
mutant "sessions: 10 answers the cursor that stands there" sessions.rs 's/Answer::alone(cause.number()),/Answer::refusal(cause.number(), 0, session.position, session.context),/'
mutant "sessions: a free place paged and closed by the key left in it" sessions.rs 's/if session.free() =>/if session.free() \&\& session.key != self.key =>/'
mutant "sessions: named by key and not by place" sessions.rs 's/self.sessions.get(index).copied()/let there = self.sessions.get(index)?; let first = self.sessions.iter().find(|s| s.holds(self.key)); Some(*first.unwrap_or(there))/'
mutant "sessions: the direction of the session not used" sessions.rs 's/request.alone(session.direction,/request.alone(0,/'
mutant "sessions: a direction above 1 read as 1" sessions.rs 's/request.alone(session.direction,/request.alone(session.direction.min(1),/'
mutant "sessions: the cursor not kept" sessions.rs '/^pub fn page/,/^}/s/position: page.answer.position/position: session.position/'
mutant "sessions: the context not kept" sessions.rs '/^pub fn page/,/^}/s/context: page.answer.context/context: session.context/'
mutant "sessions: the cursor kept at another place" sessions.rs 's/let after = request.named.with(session);/let mut after = request.named.sessions.clone(); let other = (request.named.place as usize + 1) % after.len(); after[other].position = session.position; after[other].context = session.context;/'
mutant "sessions: a refused page leaves a cursor of zeros" sessions.rs '/^pub fn page/,/^}/{s/position: page.answer.position/position: if page.answer.number == 0 { page.answer.position } else { 0 }/; s/context: page.answer.context/context: if page.answer.number == 0 { page.answer.context } else { 0 }/}'
mutant "sessions: a page writes used" sessions.rs '/^pub fn page/,/^}/s/context: page.answer.context,/& used: 1,/'
mutant "sessions: another key closes" sessions.rs 's/let causes = request.causes();/let causes: Vec<Cause> = request.causes().into_iter().filter(|cause| *cause != Cause::OtherKey).collect();/'
mutant "sessions: closing leaves the key" sessions.rs 's/request.with(Session::default())/request.with(Session { key: request.key, ..Session::default() })/'
mutant "sessions: the first place of a key closed" sessions.rs 's/0 => request.with(Session::default())/0 => { let mut after = request.sessions.clone(); let mut places = after.iter_mut(); *places.find(|s| s.holds(request.key)).unwrap() = Session::default(); after }/'
mutant "sessions: the context of the cursor aside lost" scripts.rs 's/self.cursor = \[answer.position, answer.context\]/self.cursor = [answer.position, 0]/'
mutant "sessions: a refused page moves the cursor aside" scripts.rs 's/self.cursor = \[answer.position, answer.context\]/self.cursor = [answer.position + u64::from(answer.number != 0), answer.context]/'
mutant "sessions: pages joined with those before the opening" scripts.rs 's/self.records.clear();//'
mutant "sessions: a stranger uses a harvester's session" scripts.rs 's/if self.own(place, key) {/if self.own(place, key) \&\& key == 77 {/'
mutant "sessions: pages of the next capture" scripts.rs 's/self.paging_of(rng, named, harvester.capture,/self.paging_of(rng, named, (harvester.capture + 1) % self.captures.len(),/'
mutant "sessions: pages by any profile" scripts.rs 's/let named = self.named(place, harvester.key);/& let any = rng.draw() as u8;/; s/harvester.capture, harvester.terms.profile)/harvester.capture, any)/'
rm -rf "$copy"
echo "mutants: $noticed noticed, $missed missed"
[ "$missed" -eq 0 ] && [ "$noticed" -gt 0 ]
