//! A store that is to open on the state of another.

use crate::store::single_store::{counter, single};
use loader::{StoreState, load_manifest};
use oplog::OpenError;
use schedule::World;

// The maps of another manifest.
#[test]
fn refuses_other_maps(rt: HostRuntime) {
    let other = load_manifest(rt.alloc(), "map array 8 17\n", &[]).expect(&rt, "manifest");
    let state = StoreState::open(rt.alloc(), &other).expect(&rt, "state");
    let catalogue = counter(rt.alloc()).expect(&rt, "catalogue");
    let refused = World::open_sized_on(rt.alloc(), single(16, 3, 0).sizes(), catalogue, &state);
    assert!(&rt; matches!(refused, Err(OpenError::OtherState)));
}
