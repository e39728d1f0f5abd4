// Two packets of the first sender for each packet of the second, as long as both have some.
first, second :: Queue(50);
a :: Sender(7); b :: Sender(8);
turns :: StrideSched(2, 1);
link :: ToDevice(link);

a -> first -> [0] turns;
b -> second -> [1] turns;
turns -> link;
