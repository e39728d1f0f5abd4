lan :: Sender(0);
waiting :: Queue(4);
pace :: Shaper(1, 3);
uplink :: ToDevice(ppp0);
lan [0] -> [0] waiting;
waiting [0] -> [0] pace;
pace [0] -> [0] uplink;
