/* The mistakes that are planted in the stand-in, one at a time: -DMISTAKE=name. Each is a name and what it does wrong; the place where it
 * does so is the one with WRONG(name). */
#ifndef MISTAKES_H
#define MISTAKES_H

#define MISTAKES(X)                                                                                                                        \
    X(refuses_everything, "refuses every network")                                                                                         \
    X(length_before_version, "1 for the length before 2")                                                                                  \
    X(version_not_read, "any network version is taken")                                                                                    \
    X(fourth_field_not_read, "any fourth field is taken")                                                                                  \
    X(arc_count_before_lmax, "4 before 3")                                                                                                 \
    X(arcs_up_to_255, "more than 240 arcs are not refused with 4")                                                                         \
    X(further_network_byte, "bytes after the network are taken")                                                                           \
    X(any_tail, "a tail outside 1 to n is not refused with 5")                                                                             \
    X(loop_after_length, "7 before 6")                                                                                                     \
    X(arc_of_length_0, "an arc of length 0 is taken")                                                                                      \
    X(lengths_up_to_15, "lengths up to 15 whatever LMAX is")                                                                               \
    X(repeated_by_tails, "a second arc from one tail counts as repeated")                                                                  \
    X(repeated_next_only, "an arc is compared with the one before it only")                                                                \
    X(rule_by_rule, "all arcs by 5, then all by 6, and so on, not arc by arc")                                                             \
    X(padding_not_read, "the network's padding may be anything")                                                                           \
    X(padding_before_arcs, "9 before the arcs")                                                                                            \
    X(seventeen_nodes, "a list with n = 17 is taken")                                                                                      \
    X(lmax_before_n, "3 before 19 for a list")                                                                                             \
    X(lmax_low_bits, "of a list's LMAX only the low 4 bits are looked at")                                                                 \
    X(list_length_low_bits, "of a list's length only the low 16 bits are looked at")                                                       \
    X(list_ends_swapped, "tail and head of a list's arcs are swapped")                                                                     \
    X(tie_to_the_higher, "a tie goes to the highest head")                                                                                 \
    X(tie_by_order, "a tie goes to the arc that is given first")                                                                           \
    X(tie_by_arrival, "a tie goes to the arc that a message came by last")                                                                 \
    X(stop_at_equal, "a node stops when x equals LP + LMAX")                                                                               \
    X(never_stops_far, "a node stops only when every sum is infinite")                                                                     \
    X(silent_wait, "no length is sent before waiting")                                                                                     \
    X(no_length_before_label, "no length is sent before a label")                                                                          \
    X(sent_list_of_242, "a sent list has room for 242 messages")                                                                           \
    X(equal_length_sent_again, "a length equal to the last one is sent again")                                                             \
    X(cleared_at_start, "a start loses the messages that came earlier")                                                                    \
    X(lp_not_set, "LP stays 0")                                                                                                            \
    X(hop_is_the_target, "the first hop is the target itself")                                                                             \
    X(label_passed_on_twice, "a label that has an entry is sent again")                                                                    \
    X(stopped_works_on, "a stopped node works on")                                                                                         \
    X(unstarted_loses, "a delivery to a node before its start is idle")                                                                    \
    X(stopped_is_idle, "a delivery to a stopped node is idle")                                                                             \
    X(second_start_taken, "a second start is counted as taken")                                                                            \
    X(unknown_is_idle, "an unknown step is counted as idle")                                                                               \
    X(byte_16_unknown, "deliveries begin at byte 17")                                                                                      \
    X(solved_at_once, "a start delivers everything")                                                                                       \
    X(deliveries_in_bursts, "a delivery hands over everything that is undelivered")                                                        \
    X(counts_of_16_bits, "the counts have 16 bits")                                                                                        \
    X(stopped_counts_started, "the fourth count is that of the started nodes")                                                             \
    X(state_kept, "the run before is continued")                                                                                           \
    X(own_known_early, "a node knows itself before its start")                                                                             \
    X(unreachable_early, "what is not filled is unreachable before the node stops")                                                        \
    X(never_unreachable, "what is not filled stays unknown after the stop")                                                                \
    X(hop_0_beside_a_mark, "the first hop beside a mark is 0")                                                                             \
    X(rows_of_sixteen, "a row of entries takes 32 numbers in every house")                                                                 \
    X(entries_by_target, "entries stand target by target, not node by node")                                                               \
    X(hop_first, "the first hop stands before the distance")                                                                               \
    X(run_wants_512, "13 for every room of entries under 512")                                                                             \
    X(run_one_short, "a room of entries that is one too short is taken")                                                                   \
    X(run_counts_written, "the counts are written although the room of entries is too short")                                              \
    X(run_writes_what_fits, "entries are written as far as the room goes, and then refused")                                               \
    X(run_13_first, "13 before the network's refusals")                                                                                    \
    X(run_touches_next, "the number after the entries is touched")                                                                         \
    X(run_clears_rest, "the rest of the room of entries is cleared")                                                                       \
    X(run_counts_on_refusal, "the counts are cleared although the network is refused")                                                     \
    X(most_without_starts, "the starts are left out of the most steps that can be taken")                                                  \
    X(most_one_arc_less, "of the arcs over which steps are taken one is left out")                                                         \
    X(most_without_end, "of the messages of an arc the end is left out")                                                                   \
    X(most_by_messages_sent, "the most steps are those by K6's number of messages, not 02's")                                              \
    X(most_of_15_bits, "of the most steps only the low 15 bits are given")                                                                 \
    X(node_of_8_bits, "of the node's number only the low 8 bits are looked at")                                                            \
    X(node_up_to_16, "a node up to 16 is taken in every house")                                                                            \
    X(eleven_after_thirteen, "13 before 11")                                                                                               \
    X(thirteen_before_twelve, "13 before 12")                                                                                              \
    X(zeros_for_padding, "an unfinished file is padded with zeros")                                                                        \
    X(ones_after_mark, "a finished file is padded with ones")                                                                              \
    X(mark_left_out, "no end mark where the records end at a byte's edge")                                                                 \
    X(mark_for_a_waiting_node, "the end mark is written for a waiting node")                                                               \
    X(own_entry_as_record, "the node's own entry is a record")                                                                             \
    X(distance_not_difference, "a record has the distance, not the difference")                                                            \
    X(records_by_target, "records stand in the order of targets")                                                                          \
    X(stored_before_13, "the file's header is stored before 13 is known")                                                                  \
    X(file_fills_room, "a file that just fills the room is refused")                                                                       \
    X(last_byte_touched, "the last byte of a longer room is touched")                                                                      \
    X(reads_past_steps, "the byte after the steps is read")                                                                                \
    X(reads_past_file, "the byte after the file is read")                                                                                  \
    X(twelve_bits, "12 bits are enough for a record")                                                                                      \
    X(absent_is_0, "an absent record reads as distance 0")                                                                                 \
    X(own_unknown, "a file's own entry is unknown")                                                                                        \
    X(cut_is_unreachable, "what a file without end mark does not say is unreachable")                                                      \
    X(rest_looked_at, "fewer than 13 bits from a 1 must all be 1")                                                                         \
    X(further_byte, "a byte after the end mark's is taken")                                                                                \
    X(bits_after_mark, "the bits after the end mark are not looked at")                                                                    \
    X(repeated_target, "a repeated target is taken")                                                                                       \
    X(target_itself, "a record for the node itself is taken")                                                                              \
    X(hop_itself, "a first hop that is the node itself is taken")                                                                          \
    X(hop_over_n, "a first hop over n is taken")                                                                                           \
    X(hop_must_be_listed, "a first hop without an earlier record is refused")                                                              \
    X(difference_over_lmax, "a difference over LMAX is taken")                                                                             \
    X(first_difference_0, "a first record with difference 0 is taken")                                                                     \
    X(no_difference_0, "a later record with difference 0 is refused")                                                                      \
    X(own_over_n, "an own number over n is taken")                                                                                         \
    X(file_lmax_0, "a file with LMAX 0 is taken")                                                                                          \
    X(file_version_last, "16 before 15")                                                                                                   \
    X(target_before_records, "11 for the target before 17 and 18")                                                                         \
    X(target_of_8_bits, "of the target only the low 8 bits are looked at")                                                                 \
    X(table_13_first, "13 before 17 and 18")                                                                                               \
    X(table_one_short, "a room for a table that is one too short is taken")                                                                \
    X(table_writes_what_fits, "a table is written as far as the room goes, and then refused")                                              \
    X(table_touches_next, "the number after the table is touched")                                                                         \
    X(route_with_node, "a route begins with the node itself")                                                                              \
    X(route_without_target, "a route ends before its target")                                                                              \
    X(mark_passes_target, "a target beside a mark is passed")                                                                              \
    X(route_wants_15, "13 for every room of a route under 15")                                                                             \
    X(route_one_short, "a room for a route that is one too short is taken")                                                                \
    X(route_writes_what_fits, "a route is written as far as the room goes, and then refused")                                              \
    X(route_13_first, "13 before 11 for an empty room")                                                                                    \
    X(route_clears_rest, "the rest of a route's room is cleared")                                                                          \
    X(pack_wants_363, "13 for every room of a network under 363")                                                                          \
    X(pack_one_short, "a room for a network that is one too short is taken")                                                               \
    X(pack_writes_header, "a network's first bytes are stored before 13 is known")                                                         \
    X(pack_13_first, "13 before the list's refusals")                                                                                      \
    X(pack_half_byte, "the padding of a packed network is not set to 0")                                                                   \
    X(pack_ends_swapped, "tail and head are swapped in a packed network")                                                                  \
    X(pack_touches_next, "the byte after a packed network is touched")                                                                     \
    X(null_steps_refused, "no steps, handed over as NULL, are refused")                                                                    \
    X(null_arcs_refused, "no arcs, handed over as NULL, are refused")                                                                      \
    X(null_room_refused, "no room, handed over as NULL, is refused where none is needed")                                                  \
    X(values_on_refusal, "a refusal has values above its number")

#define AS_CONSTANT(name, words) name,
enum mistake { no_mistake, MISTAKES(AS_CONSTANT) MISTAKES_END };
#undef AS_CONSTANT

#ifndef MISTAKE
#define MISTAKE no_mistake
#endif
#define WRONG(name) (MISTAKE == (name))
#endif
