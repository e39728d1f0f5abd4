// A router with two uplinks, each with a scheduler of its own. Over the DSL line, device 0, calls go before web pages.
// Over the mobile line, device 1, backups and updates share two to one by bytes.
calls :: Sender(0); web :: Sender(1); backups :: Sender(2); updates :: Sender(3);
qc, qw :: Queue(10); qb, qu :: Queue(3);
urgent :: PrioSched;
shares :: DRRSched(1000, 500);
dsl :: ToDevice(ppp0); mobile :: ToDevice(wwan0);

calls -> qc -> [0] urgent; web -> qw -> [1] urgent;
urgent -> dsl;
backups -> qb -> [0] shares; updates -> qu -> [1] shares;
shares -> mobile;
