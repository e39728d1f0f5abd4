// Two lines, each with a clock of its own: the fibre was pulled at moment 86400 when the radio link has just come up, with
// one packet a tick, or two after a silence. Of the meters' readings only the newest counts.
city :: Sender(1); village :: Sender(2); meters :: Sender(3);
qc :: Queue(2); qv :: Queue(4); reading :: FrontDropQueue(1);
turns :: RoundRobinSched;
pace :: Shaper(1, 2);
fibre :: ToDevice(eth0); radio :: ToDevice(wlan0);

city -> qc -> fibre;
village -> qv -> [0] turns; meters -> reading -> [1] turns;
turns -> pace -> radio;
