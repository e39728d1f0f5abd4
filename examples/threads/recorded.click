a :: Sender(0); b :: Sender(1);
p, q :: Queue(8);
s :: DRRSched(1500);
d :: ToDevice(eth0);
a -> p -> s -> d;
b -> q -> [1] s;
