//! The recipes that are measured: sockets with 64 cores each, references that jump about, an SRAT of 20 records, a matrix with every value set.

fn head(table: u8) -> Vec<u8> {
    let mut r = vec![1, table];
    r.extend(b"BENCH SHAPES01");
    r.extend([1, 0, 0, 0]);
    r.extend(b"RVAT");
    r.extend([0, 0, 0, 1]); // the crate's creator fields
    r
}

fn number(r: &mut Vec<u8>, v: u64, width: usize) {
    r.extend(&v.to_le_bytes()[..width]);
}

fn cache(r: &mut Vec<u8>, next_level: u64, size: u64, ways: u8, kind: u8) {
    r.extend([18, 0xFF]);
    number(r, next_level, 4);
    number(r, size, 4);
    number(r, size / 64 / ways as u64, 4);
    r.extend([ways, kind]);
    number(r, 64, 2);
    number(r, r.len() as u64, 4); // an id of its own
}

fn processor(r: &mut Vec<u8>, flags: u64, parent: u64, id: u64, caches: &[u64]) {
    r.push(16);
    number(r, flags, 4);
    number(r, parent, 4);
    number(r, id, 4);
    for &c in caches {
        r.push(17);
        number(r, c, 4);
    }
}

/// Sockets with an L3 and 64 cores each; a core has so many caches of its own: 0, 1 (an L2) or 3 (an L2 and two L1).
fn pptt(sockets: usize, private: usize) -> Vec<u8> {
    let mut r = head(0);
    let mut nodes = 0;
    let mut cores = 0;
    for _ in 0..sockets {
        cache(&mut r, 0, 32 << 20, 16, 0x0A);
        let l3 = nodes + 1;
        processor(&mut r, 0x11, 0, 0, &[l3]);
        let socket = nodes + 2;
        nodes += 2;
        for _ in 0..64 {
            let mut own = Vec::new();
            for c in 0..private {
                let next = if c == 0 { l3 } else { own[0] };
                cache(&mut r, next, if c == 0 { 1 << 20 } else { 1 << 15 }, 8, [0x0A, 0x02, 0x06][c]);
                nodes += 1;
                own.push(nodes);
            }
            // a core names its first-level caches, or the one cache that it has
            let named = if private == 3 { &own[1..] } else { &own[..] };
            processor(&mut r, 0x0A, socket, cores, named);
            nodes += 1;
            cores += 1;
        }
    }
    r
}

/// Caches and processors in turn: a cache names an earlier cache, a processor an earlier processor and two caches, any of them.
fn jumps(nodes: u64) -> Vec<u8> {
    let mut r = head(0);
    let mut state = 1u64;
    let mut random = |n: u64| {
        state = state.wrapping_mul(6364136223846793005).wrapping_add(1442695040888963407);
        (state >> 33) % n
    };
    for k in 1..=nodes {
        // caches have odd ordinals, processors even ones
        if k % 2 == 1 {
            let next = if k == 1 { 0 } else { 2 * random(k / 2) + 1 };
            cache(&mut r, next, 1 << 15, 8, 0x0A);
        } else {
            let parent = if k == 2 { 0 } else { 2 * random(k / 2 - 1) + 2 };
            let named = [2 * random(k / 2) + 1, 2 * random(k / 2) + 1];
            processor(&mut r, 0x0A, parent, k, &named);
        }
    }
    r
}

fn srat() -> Vec<u8> {
    let mut r = head(1);
    for domain in 0..8 {
        r.push(32);
        number(&mut r, domain, 4);
        number(&mut r, domain << 36, 8);
        number(&mut r, 1 << 36, 8);
        r.push(1);
    }
    for device in 0..12 {
        r.push(34);
        number(&mut r, device % 8, 4);
        number(&mut r, 0, 2);
        r.extend([device as u8, device as u8, 0, 1]);
    }
    r
}

fn hmat(i: usize, t: usize) -> Vec<u8> {
    let mut r = head(2);
    r.extend([49, 0, 1, 0]);
    number(&mut r, 1000, 8);
    r.extend([i as u8, t as u8]);
    for (kind, n) in [(50, i), (51, t)] {
        for k in 0..n {
            r.extend([kind, k as u8]);
            number(&mut r, k as u64 + 1, 4);
        }
    }
    for cell in 0..i * t {
        r.extend([52, (cell / t) as u8, (cell % t) as u8]);
        number(&mut r, cell as u64 % 1000, 2);
    }
    r
}

/// Whether the recipe is of a matrix with I not equal to T, on which the crate differs.
pub fn is_oblong(recipe: &[u8]) -> bool {
    recipe[1] == 2 && recipe[39] != recipe[40]
}

pub fn recipe(shape: &str) -> Vec<u8> {
    match shape {
        "pptt-132" => pptt(2, 0),
        "pptt-260" => pptt(2, 1),
        "pptt-516" => pptt(2, 3),
        "pptt-4026" => pptt(61, 0),
        "pptt-4128" => pptt(16, 3),
        "jump-132" => jumps(132),
        "jump-4000" => jumps(4000),
        "srat-20" => srat(),
        "hmat-2x3" => hmat(2, 3),
        "hmat-16x16" => hmat(16, 16),
        "hmat-255x255" => hmat(255, 255),
        other => panic!("no shape named {other}"),
    }
}
