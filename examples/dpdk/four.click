// The uplink of ../capture/uplink.click behind four receive queues. Each receive queue has senders of its own, since an inlet takes frames
// from one core: those of receive queue Q that the table sorts to sender S come from Sender(4 * Q + S).
calls0 :: Sender(0); one0 :: Sender(1); two0 :: Sender(2); guests0 :: Sender(3);
calls1 :: Sender(4); one1 :: Sender(5); two1 :: Sender(6); guests1 :: Sender(7);
calls2 :: Sender(8); one2 :: Sender(9); two2 :: Sender(10); guests2 :: Sender(11);
calls3 :: Sender(12); one3 :: Sender(13); two3 :: Sender(14); guests3 :: Sender(15);
voice :: FrontDropQueue(10); first, second, rest :: Queue(60);
offices :: DRRSched(3000, 1500);
order :: PrioSched;
uplink :: ToDevice(wan0);

calls0 -> voice; calls1 -> voice; calls2 -> voice; calls3 -> voice;
one0 -> first; one1 -> first; one2 -> first; one3 -> first;
two0 -> second; two1 -> second; two2 -> second; two3 -> second;
guests0 -> rest; guests1 -> rest; guests2 -> rest; guests3 -> rest;
voice -> order;
first -> offices; second -> [1] offices; offices -> [1] order;
rest -> [2] order;
order -> uplink;
