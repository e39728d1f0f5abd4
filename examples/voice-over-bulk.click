// Strict priority: a call's packets go first whenever there are some, and bulk transfers take what is left.
voice :: Sender(0); bulk :: Sender(1);
calls :: Queue(10); transfers :: Queue(10);
first :: PrioSched;
uplink :: ToDevice(eth0);

voice -> calls -> [0] first;
bulk -> transfers -> [1] first;
first -> uplink;
