// At night three offices back up over one link, each from a queue with room for all that it sends. The head office takes
// half of the bytes, and the others share the rest, for as long as all have something to send. Whatever the order in
// which their packets come, nothing is lost.
headquarters :: Sender(1); branch :: Sender(2); depot :: Sender(3);
h, b, d :: Queue(100);
shares :: DRRSched(3000, 1500, 1500);
link :: ToDevice(wan0);

headquarters -> h -> [0] shares;
branch -> b -> [1] shares;
depot -> d -> [2] shares;
shares -> link;
