// The uplink of a house with two offices: calls go before all else, and of what is left the first office has two thirds of the bytes. Of
// calls that wait too long the oldest packet goes, since nobody hears it any more. Guests take what nobody else wants.
calls :: Sender(0); first, second :: Queue(60);
one :: Sender(1); two :: Sender(2); guests :: Sender(3);
voice :: FrontDropQueue(10); rest :: Queue(60);
offices :: DRRSched(3000, 1500);
order :: PrioSched;
uplink :: ToDevice(wan0);

calls -> voice -> order;
one -> first -> offices;
two -> second -> [1] offices;
offices -> [1] order;
guests -> rest -> [2] order;
order -> uplink;
