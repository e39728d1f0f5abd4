// The uplink of a branch office: calls before all else; then office and guests, who share bytes three to one; and
// telemetry, of which only the newest readings count, so that its queue drops at the front. All at two packets a tick.
calls :: Sender(10); office :: Sender(20); guests :: Sender(30); sensors :: Sender(40);
qc :: Queue(20); qo, qg :: Queue(50);
readings :: FrontDropQueue(2);
shares :: DRRSched(1500, 500);
turns :: StrideSched(4, 1);
urgent :: PrioSched;
pace :: Shaper(2, 2);
uplink :: ToDevice(eth1);

calls -> qc -> [0] urgent;
office -> qo -> [0] shares; guests -> qg -> [1] shares;
shares -> [0] turns;
sensors -> readings -> [1] turns;
turns -> [1] urgent;
urgent -> pace -> uplink;
