/* Document 01's method, written from the document alone: every order of start and delivery steps of one small house.
 *
 * spin_check.py writes house.pml: N, LMAX, ARCS, the arcs (numbered from 0 here), SENT for the room of a sent list, and for every node
 * and target what a shortest chain says: right_distance (NONE without a chain) and right_hop (its lowest first hop). Or it takes
 * any_house.pml in its place.
 * It also defines one of STOP_EARLY, SILENT_WAIT, TIE_BY_ARRIVAL, CLEAR_AT_START to have a wrong method caught.
 */
#define NONE 255
#define END 255
#define AT(i, y) ((i) * (N + 1) + (y))
#include "house.pml"

/* a message is one number: a label y is y, a length l is ZERO + l, the end is END */
#define ZERO 32
#define is_label(m) ((m) < ZERO)

/* the house's state */
bool started[N + 1], stopped[N + 1];
byte lp[N + 1], last_length[N + 1], waits_for[N + 1];
byte sent[(N + 1) * SENT], sent_count[N + 1];
byte distance[(N + 1) * (N + 1)], hop[(N + 1) * (N + 1)]; /* NONE: no entry */
byte delivered[ARCS + 1], taken[ARCS + 1];
short item[ARCS + 1]; /* the current item, a length or INFINITE */
#define INFINITE 1000

/* used within one step only, so no part of a state */
hidden short x, sum, steps, most, sharp;
hidden byte k, m, a, least, i_, y_;
hidden byte was[(N + 1) * (N + 1)], had[(N + 1) * (N + 1)];

inline send(who, message) {
	assert(sent_count[who] < SENT);
	sent[(who) * SENT + sent_count[who]] = message;
	sent_count[who]++
}

/* a length equal to the last length sent by that node is not sent; 0 counts as sent at the start */
inline send_length(sender, l) {
	if
	:: l != last_length[sender] -> send(sender, ZERO + l); last_length[sender] = l
	:: else
	fi
}

/* of equal sums the lowest head number */
#ifdef TIE_BY_ARRIVAL
#define has_message(b) (taken[b] < delivered[b])
#define wins_tie(b, c) (has_message(b) > has_message(c) || (has_message(b) == has_message(c) && head[b] < head[c]))
#else
#define wins_tie(b, c) (head[b] < head[c])
#endif

/* rule 1: the outgoing arc with the least sum x of arc length and current item; ARCS if there is none */
inline choose(i) {
	least = ARCS;
	x = INFINITE;
	for (k : 0 .. ARCS - 1) {
		sum = length[k] + item[k];
		if
		:: tail[k] == i && item[k] != INFINITE && (sum < x || (sum == x && wins_tie(k, least))) -> least = k; x = sum
		:: else
		fi
	}
	k = 0
}

#ifdef STOP_EARLY
#define is_too_far(i) (x == INFINITE || x >= lp[i] + LMAX)
#else
#define is_too_far(i) (x == INFINITE || x > lp[i] + LMAX)
#endif

inline fill(who, target, far, by) {
	assert(distance[AT(who, target)] == NONE);
	distance[AT(who, target)] = far;
	hop[AT(who, target)] = by
}

/* rules 3 and 4 for the arc a at the sum x: until the node waits, or a length or the end makes it choose again */
inline take(i) {
	do
	:: taken[a] == delivered[a] ->
#ifndef SILENT_WAIT
		send_length(i, x);
#endif
		waits_for[i] = a + 1;
		break
	:: else ->
		m = sent[head[a] * SENT + taken[a]];
		taken[a]++;
		if
		:: m == END -> item[a] = INFINITE; break
		:: m != END && !is_label(m) -> item[a] = m - ZERO; break
		:: is_label(m) && distance[AT(i, m)] == NONE ->
			send_length(i, x);
			send(i, m);
			fill(i, m, x, head[a]);
			lp[i] = x
		:: is_label(m) && distance[AT(i, m)] != NONE
		fi
	od
}

/* from rule 3 on the arc waited for, or from rule 1, until the node waits or stops */
inline work(i) {
	do
	:: waits_for[i] != 0 ->
		a = waits_for[i] - 1;
		x = length[a] + item[a];
		waits_for[i] = 0;
		take(i);
		if
		:: waits_for[i] != 0 -> break
		:: else
		fi
	:: else ->
		choose(i);
		if
		:: is_too_far(i) -> send(i, END); stopped[i] = true; break
		:: else -> waits_for[i] = least + 1 /* go on with rule 3 */
		fi
	od
}

inline start(i) {
	started[i] = true;
	fill(i, i, 0, 0);
	send(i, i);
#ifdef CLEAR_AT_START
	for (k : 0 .. ARCS - 1) {
		if
		:: tail[k] == i -> taken[k] = delivered[k]
		:: else
		fi
	}
	k = 0;
#endif
	work(i)
}

inline remember() {
	for (k : 0 .. (N + 1) * (N + 1) - 1) {
		was[k] = distance[k];
		had[k] = hop[k]
	}
	k = 0
}

/* what must hold after every step */
inline judge() {
	for (i_ : 1 .. N) {
		for (y_ : 1 .. N) {
			k = AT(i_, y_);
			/* a filled entry is the shortest distance with the lowest first hop, and never changes */
			assert(distance[k] == NONE || (distance[k] == right_distance[k] && hop[k] == right_hop[k]));
			assert(was[k] == NONE || (was[k] == distance[k] && had[k] == hop[k]));
			/* unreachable only if no chain leads there; before its start a node knows nothing, after it itself */
			assert(!stopped[i_] || distance[k] != NONE || right_distance[k] == NONE);
			assert(started[i_] || distance[k] == NONE);
			assert(!started[i_] || distance[AT(i_, i_)] == 0)
		}
	}
	i_ = 0;
	y_ = 0;
	k = 0
}

proctype Node(byte i) {
end:	do
	:: d_step { !started[i] -> remember(); start(i); judge() }
	od
}

/* a delivery hands over the oldest undelivered message of the arc; a started, unstopped node then works on */
proctype Arc(byte arc) {
end:	do
	:: d_step {
		tail[arc] != 0 && delivered[arc] < sent_count[head[arc]] ->
		remember();
		delivered[arc]++;
		if
		:: started[tail[arc]] && !stopped[tail[arc]] -> work(tail[arc])
		:: else
		fi;
		judge()
	}
	od
}

/* where no step is left, every node must have stopped: nobody waits for ever; and no more steps were taken, starts and deliveries, than
 * document 02's K8 says, nor more than with the room of a sent list in the place of its bracket */
proctype Last() {
end:	timeout;
	d_step {
		for (k : 1 .. N) {
			assert(started[k] && stopped[k])
		}
		steps = N;
		most = N;
		sharp = N;
		for (k : 0 .. ARCS - 1) {
			if
			:: tail[k] != 0 ->
				steps = steps + delivered[k];
				most = most + N * LMAX + N + 1;
				sharp = sharp + (N - 1) * LMAX + N + 2
			:: else
			fi
		}
		assert(steps <= most && steps <= sharp);
		k = 0
	}
}

init {
	d_step {
		for (k : 0 .. (N + 1) * (N + 1) - 1) {
			distance[k] = NONE;
			hop[k] = NONE
		}
		k = 0
	}
	atomic {
		byte each;
		pick_house();
		for (each : 1 .. N) {
			run Node(each)
		}
		for (each : 0 .. ARCS - 1) {
			run Arc(each)
		}
		each = 0;
		run Last()
	}
}
