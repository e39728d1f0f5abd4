//! How many: offers and values beyond one call of the C library, places for offers, pulls of a drain, and devices.

use clickpull::{LiveRouter, Offer, Offered, Router, Stop};

const ONE: &str = "a :: Sender(0); q :: Queue(200); d :: ToDevice(link); a -> q -> d;";
const SHAPED: &str = "a :: Sender(0); q :: Queue(9); s :: Shaper(1); d :: ToDevice(link); a -> q -> s -> d;";

/// The deficit grows by 500 in each pull.
const SAVING: &str = "a :: Sender(0); q :: Queue(9); s :: DRRSched(500); d :: ToDevice(link); a -> q -> s -> d;";

/// It has 3 senders, 3 queues and 2 devices.
const THREE: &str = "a :: Sender(0); b :: Sender(1); e :: Sender(2); p, q, r :: Queue(1); s :: PrioSched; c, d :: ToDevice(link);
a -> p -> c; b -> q -> s -> d; e -> r -> [1] s;";

/// A router with packets of these lengths in its queue.
fn offered(tree: &str, lengths: &[u32]) -> Router {
    let mut router = Router::open(tree).unwrap();
    assert!(lengths.iter().all(|&length| router.offer(0, length).unwrap().is_accepted()));
    router
}

#[test]
fn no_more_is_offered_than_there_are_places_for() {
    let mut router = Router::open(ONE).unwrap();
    let offers = [10, 20, 30].map(|length| Offer { sender: 0, length });
    let mut places = [Offered::default(); 3];
    let (offered, end) = router.offer_many(&offers, &mut places[..1]);
    assert_eq!((offered.len(), end), (1, Ok(())));
    assert_eq!(offered[0].packet().length, 10);
    assert_eq!(router.left(0), Ok(1));
    assert_eq!(places[1..], [Offered::default(); 2]);
}

#[test]
fn more_packets_are_offered_and_reclaimed_than_one_call_can_have() {
    let mut router = LiveRouter::open(ONE, 200).unwrap();
    let mut inlet = router.inlet(0).unwrap();
    let mut packets = (0..250).map(|it| (1, it));
    assert_eq!(inlet.offer_many(&mut packets), (200, Ok(())));
    assert_eq!(packets.next(), Some((1, 200)));
    let taken: Vec<usize> = std::iter::repeat_with(|| router.take_in(64, 64).count()).take_while(|&it| it > 0).collect();
    assert_eq!(taken, [64, 64, 64, 8]);
    assert!(router.reclaim().eq(0..200));
}

#[test]
fn as_many_values_are_reclaimed_as_one_call_can_have() {
    let mut router = LiveRouter::open(ONE, 200).unwrap();
    let mut inlet = router.inlet(0).unwrap();
    assert_eq!(inlet.offer_many(&mut (0..64).map(|it| (1, it))), (64, Ok(())));
    assert_eq!(router.take_in(64, 64).count(), 64);
    let mut reclaimed = router.reclaim();
    assert!(reclaimed.by_ref().eq(0..64));
    assert_eq!(reclaimed.next(), None);
}

#[test]
fn a_drain_tells_why_it_stops() {
    let mut router = offered(SHAPED, &[10, 20, 30]);
    let mut drain = router.drain(0).unwrap().pulls(1);
    assert_eq!(drain.stop(), None);
    assert_eq!(drain.next().map(|it| (it.moment, it.packet.length)), Some((1, 10)));
    assert_eq!((drain.next(), drain.stop()), (None, Some(Stop::Pulls)));
    let mut drain = router.drain(0).unwrap();
    assert!(drain.by_ref().map(|it| (it.moment, it.packet.length)).eq([(2, 20), (3, 30)]));
    assert_eq!((drain.next(), drain.stop()), (None, Some(Stop::Empty)));
}

/// Pulls that emit nothing count, and those before don't.
#[test]
fn a_drain_that_may_make_more_pulls_goes_on() {
    let mut router = offered(SAVING, &[1600]);
    let mut drain = router.drain(0).unwrap().pulls(2);
    assert_eq!((drain.next(), drain.stop()), (None, Some(Stop::Pulls)));
    drain = drain.pulls(1);
    assert_eq!(drain.stop(), None);
    assert_eq!((drain.next(), drain.stop()), (None, Some(Stop::Pulls)));
    drain = drain.pulls(1);
    assert_eq!(drain.next().map(|it| it.moment), Some(4));
    drain = drain.pulls(0);
    assert_eq!((drain.next(), drain.stop()), (None, Some(Stop::Empty)));
    assert_eq!(drain.pulls(9).stop(), Some(Stop::Empty));
    assert_eq!(router.moment(0), Ok(4));
}

#[test]
fn a_drain_counts_the_pulls_that_it_may_make_anew() {
    let mut router = offered(SHAPED, &[10, 20, 30, 40]);
    let mut drain = router.drain(0).unwrap().pulls(3);
    assert_eq!(drain.next().map(|it| it.moment), Some(1));
    drain = drain.pulls(2);
    assert!(drain.by_ref().map(|it| it.moment).eq([2, 3]));
    assert_eq!(drain.stop(), Some(Stop::Pulls));
    drain = drain.pulls(2);
    assert!(drain.by_ref().map(|it| it.moment).eq([4]));
    assert_eq!(drain.stop(), Some(Stop::Empty));
}

#[test]
fn a_live_drain_that_may_make_more_pulls_goes_on() {
    let mut router = LiveRouter::open(SAVING, 4).unwrap();
    let mut inlet = router.inlet(0).unwrap();
    inlet.offer(1600, "job").unwrap();
    assert_eq!(router.take_in(1, 1).count(), 1);
    let mut drain = router.drain(0).unwrap().pulls(3);
    assert_eq!((drain.next(), drain.stop()), (None, Some(Stop::Pulls)));
    drain = drain.pulls(3);
    assert_eq!(drain.next().map(|it| (it.moment, it.value)), Some((4, "job")));
    assert_eq!((drain.next(), drain.stop()), (None, Some(Stop::Empty)));
}

#[test]
fn devices_are_counted() {
    let (router, live) = (Router::open(THREE).unwrap(), LiveRouter::<()>::open(THREE, 1).unwrap());
    assert_eq!((router.accounts().len(), router.queues().len(), router.devices()), (3, 3, 2));
    assert_eq!((live.accounts().len(), live.queues().len(), live.devices()), (3, 3, 2));
}
