// Three customers share a link by bytes, one to two to three: a round gives each input its quantum, in bytes. The
// customers send packets of different lengths, which changes nothing in the shares.
silver :: Sender(1); gold :: Sender(2); platinum :: Sender(3);
s, g, p :: Queue(100);
shares :: DRRSched(500, 1000, 1500);
link :: ToDevice(link);

silver -> s -> [0] shares;
gold -> g -> [1] shares;
platinum -> p -> [2] shares;
shares -> link;
