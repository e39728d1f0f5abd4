// One packet a tick (say, a millisecond), and after a silence up to three at once. Four packets wait, and more are
// refused.
lan :: Sender(0);
waiting :: Queue(4);
pace :: Shaper(1, 3);
uplink :: ToDevice(ppp0);

lan -> waiting -> pace -> uplink;
