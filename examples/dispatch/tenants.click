// Who is next on the cluster. Alerts go first, but no more than one a tick, and five after a silence, so that nobody can flood it with them.
// Physics, biology and guests share what is left two to one to one, by the sizes of their jobs. A size is the expected time in microseconds.
alerts :: Sender(0); physics :: Sender(1); biology :: Sender(2); guests :: Sender(3);
urgent :: Queue(10); of_physics, of_biology, of_guests :: Queue(40);
rate :: Shaper(1, 5);
shares :: DRRSched(200000, 100000, 100000);
first :: PrioSched;
cluster :: ToDevice(dask);

alerts -> urgent -> rate -> first;
physics -> of_physics -> shares;
biology -> of_biology -> [1] shares;
guests -> of_guests -> [2] shares;
shares -> [1] first;
first -> cluster;
