/* Every house of N nodes with lengths up to LMAX at once, in the place of house.pml: each possible arc is left out or has any length.
 * The shortest chains are Floyd and Warshall's here. An arc that is left out has tail and head 0.
 */
#define ARCS (N * (N - 1))
#define SENT ((N - 1) * LMAX + N + 2)

byte tail[ARCS + 1], head[ARCS + 1], length[ARCS + 1];
byte right_distance[(N + 1) * (N + 1)], right_hop[(N + 1) * (N + 1)];

inline pick_house() {
	byte t, h, c, l;
	for (t : 1 .. N) {
		for (h : 1 .. N) {
			if
			:: t == h
			:: t != h -> c++ /* left out */
			:: t != h -> select(l : 1 .. LMAX); tail[c] = t; head[c] = h; length[c] = l; c++
			fi
		}
	}
	t = 0;
	h = 0;
	c = 0;
	l = 0;
	find_right()
}

#define shorter(i, v, y) (right_distance[AT(i, v)] != NONE && right_distance[AT(v, y)] != NONE && \
	right_distance[AT(i, v)] + right_distance[AT(v, y)] < right_distance[AT(i, y)])
#define is_way(c, i, y) (tail[c] == i && right_distance[AT(head[c], y)] != NONE && \
	length[c] + right_distance[AT(head[c], y)] == right_distance[AT(i, y)])

inline find_right() {
	d_step {
		for (k : 0 .. (N + 1) * (N + 1) - 1) {
			right_distance[k] = (k / (N + 1) == k % (N + 1) && k != 0 -> 0 : NONE);
			right_hop[k] = (right_distance[k] == 0 -> 0 : NONE)
		}
		for (k : 0 .. ARCS - 1) {
			right_distance[AT(tail[k], head[k])] = (tail[k] == 0 -> NONE : length[k])
		}
		for (a : 1 .. N) {
			for (i_ : 1 .. N) {
				for (y_ : 1 .. N) {
					right_distance[AT(i_, y_)] = (shorter(i_, a, y_) -> right_distance[AT(i_, a)] + right_distance[AT(a, y_)] : right_distance[AT(i_, y_)])
				}
			}
		}
		for (k : 0 .. ARCS - 1) {
			for (y_ : 1 .. N) {
				if
				:: tail[k] != 0 && tail[k] != y_ && is_way(k, tail[k], y_) && head[k] < right_hop[AT(tail[k], y_)] ->
					right_hop[AT(tail[k], y_)] = head[k]
				:: else
				fi
			}
		}
		k = 0;
		a = 0;
		i_ = 0;
		y_ = 0
	}
}
