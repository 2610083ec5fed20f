//! R-4's tie between the two engines, of what the program answers for each.

use crate::calls::{Call, What};
use crate::floor::MARK;

/// A question to A* as one to the plain search, "with the limit at the cell count"; on a map without cells, which is refused, no limit is 0.
pub fn as_search(call: &Call) -> Call {
    let mut search = call.clone();
    search.what = What::Search;
    search.limit = call.floor().cells().clamp(1, MARK as u64) as u32;
    search
}

/// "Found, cost and first route are proved equal to the plain search's"; "work, the route room and what lies beyond are left as the plain search
/// leaves them". So the replies are equal but for the settled count and the costs of the map's cells; the route's sums are equal too.
pub fn agree(call: &Call, searched: &[u8], aimed: &[u8]) -> bool {
    let length = call.reply_length();
    if searched.len() != length || aimed.len() != length {
        return false;
    }
    let (searched, search_rooms) = call.parts(searched);
    let (aimed, astar_rooms) = call.parts(aimed);
    let but_settled = |front: &[u32]| [&front[..3], &front[4..]].concat();
    let beyond = |costs: &[u32]| costs.get(call.map.len()..).map(<[u32]>::to_vec);
    but_settled(&searched) == but_settled(&aimed)
        && search_rooms.route == astar_rooms.route
        && search_rooms.work == astar_rooms.work
        && beyond(&search_rooms.costs) == beyond(&astar_rooms.costs)
}
