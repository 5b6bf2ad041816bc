//! How many sub-goals one goal can cost at most: the calls of `goal_search::within::search` where nothing follows.
//! A link leads from the variable that it replaces to the one that it puts there; one is kept for each ordered pair.
//! Variables with no link from them are alike, so a set of links is given by the links among the variables that have
//! some, and by how many more links each of these has. Every such set with at most SOURCES variables is tried;
//! docs/TESTS.md says why more are never worse.

const LEVELS: usize = 3;
const SOURCES: usize = 5;

/// The links among `count` variables: bit `v * count + u` for a link from v to u, and the links of each to variables with none.
struct Links {
    count: usize,
    among: u32,
    beyond: [u64; SOURCES],
}

impl Links {
    /// The calls for a goal over y and z with so many links left; `count` stands for a variable with no link from it.
    fn calls(&self, table: &mut [[[u64; SOURCES + 1]; SOURCES + 1]; LEVELS + 1]) {
        let n = self.count;
        for y in 0..=n {
            for z in 0..=n {
                table[0][y][z] = 1;
            }
        }
        for level in 1..=LEVELS {
            for y in 0..=n {
                for z in 0..=n {
                    let mut sum = 1;
                    if y < n {
                        sum += self.beyond[y] * table[level - 1][n][z];
                        for u in 0..n {
                            if self.among >> (y * n + u) & 1 == 1 {
                                sum += table[level - 1][u][z];
                            }
                        }
                    }
                    // where y is z the goals with one of the two replaced are alike, and one is tried
                    if z < n && z != y {
                        sum += self.beyond[z] * table[level - 1][y][n];
                        for u in 0..n {
                            if self.among >> (z * n + u) & 1 == 1 {
                                sum += table[level - 1][y][u];
                            }
                        }
                    }
                    table[level][y][z] = sum;
                }
            }
        }
    }

    /// Whether two variables have a link each way.
    fn both_ways(&self) -> bool {
        let n = self.count;
        (0..n).any(|v| (0..v).any(|u| self.among >> (v * n + u) & 1 == 1 && self.among >> (u * n + v) & 1 == 1))
    }
}

/// Hands out every way to share `left` among the first `count` places.
fn shares(left: u64, place: usize, count: usize, out: &mut [u64; SOURCES], visit: &mut impl FnMut(&[u64; SOURCES])) {
    if place + 1 == count {
        out[place] = left;
        visit(out);
        return;
    }
    for here in 0..=left {
        out[place] = here;
        shares(left - here, place + 1, count, out, visit);
    }
}

/// The greatest number of calls over all sets of `size` links, and a set that reaches it. Where `paired`, some two
/// variables have a link each way.
fn greatest(size: u32, paired: bool) -> (u64, String) {
    let mut best = (0, String::new());
    let mut table = [[[0; SOURCES + 1]; SOURCES + 1]; LEVELS + 1];
    for count in 1..=SOURCES {
        for among in 0..1u32 << (count * count) {
            let inner = among.count_ones();
            if inner > size {
                continue;
            }
            let mut beyond = [0; SOURCES];
            shares(u64::from(size - inner), 0, count, &mut beyond, &mut |beyond| {
                // variables other than y and z are alike: one order of them is enough
                if (3..count).any(|v| beyond[v] > beyond[v - 1]) {
                    return;
                }
                let links = Links { count, among, beyond: *beyond };
                if paired && !links.both_ways() {
                    return;
                }
                links.calls(&mut table);
                // the first variable is y; z is the same, the second, or one with no link
                for z in [0, 1, count] {
                    let calls = table[LEVELS][0][z.min(count)];
                    if calls > best.0 {
                        let from: Vec<String> = (0..count)
                            .map(|v| {
                                let to: Vec<usize> = (0..count).filter(|u| among >> (v * count + u) & 1 == 1).collect();
                                format!("{v} to {to:?} and {} more", beyond[v])
                            })
                            .collect();
                        best = (
                            calls,
                            format!(
                                "y 0, z {}: {}",
                                if z.min(count) == count { "none".into() } else { z.to_string() },
                                from.join("; ")
                            ),
                        );
                    }
                }
            });
        }
    }
    best
}

fn main() {
    for (size, paired) in [(10, true), (9, false), (10, false), (8, false)] {
        let (calls, set) = greatest(size, paired);
        println!("{size} links{}: {calls} calls; {set}", if paired { ", two of them each way" } else { "" });
    }
}
