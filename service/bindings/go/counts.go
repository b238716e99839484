package hindsight

// #include <hindsight.h>
import "C"

// Counts are what a node did since it was opened. The header says what each of hind_node_counts counts.
type Counts struct {
	Passes, Clients, UsedClients                                                       uint64
	Points, NullPages, StrayPoints, FullPoints, LongPoints, SpentPoints                uint64
	RefusedCrumbs, RefusedTriggers, DroppedNotes                                       uint64
	Messages, Hellos, Tells, Reports, Standings, Repeats, Acknowledged, Unacknowledged uint64
	Asks, FullAsks, RefusedAsks                                                        uint64
	Salvaged, Torn, Salvaging, LimitedTriggers                                         uint64
}

// Counts may be called by any goroutine.
func (n *Node) Counts() (Counts, error) {
	var c C.hind_node_counts
	c.size = C.sizeof_hind_node_counts
	if err := errorOf(C.hind_node_get_counts(n.at, &c)); err != nil {
		return Counts{}, err
	}
	u := func(of C.uint64_t) uint64 { return uint64(of) }
	return Counts{
		u(c.passes), u(c.clients), u(c.used_clients),
		u(c.points), u(c.null_pages), u(c.stray_points), u(c.full_points), u(c.long_points), u(c.spent_points),
		u(c.refused_crumbs), u(c.refused_triggers), u(c.dropped_notes),
		u(c.messages), u(c.hellos), u(c.tells), u(c.reports), u(c.standings), u(c.repeats), u(c.acknowledged), u(c.unacknowledged),
		u(c.asks), u(c.full_asks), u(c.refused_asks),
		u(c.salvaged), u(c.torn), u(c.salvaging), u(c.limited_triggers),
	}, nil
}
