#!/bin/sh
# Shows that the comparison finds slips: each edit below breaks the reference in one place, and `compare` has to
# find a difference from the oracle. Needs ./build.sh first.
set -u
cd "$(dirname "$0")"
export RUSTC_BOOTSTRAP=1
work=target/slips
rm -rf "$work/src"
mkdir -p "$work/src"
cp -r runs tools "$work/src/"
printf '[workspace]\nresolver = "2"\nmembers = ["runs", "tools"]\n' > "$work/src/Cargo.toml"
file=$work/src/runs/src/reference.rs
cp "$file" "$work/reference.rs"
missed=0

# slip NAME SED-EXPRESSION
slip() {
    sed -e "$2" "$work/reference.rs" > "$file"
    if cmp -s "$work/reference.rs" "$file"; then
        echo "$1: the edit changes nothing"
        missed=$((missed + 1))
        return
    fi
    if ! cargo build --release --offline --quiet -j 1 --manifest-path "$work/src/Cargo.toml" \
        --target-dir "$work/target" --bin reference 2> "$work/errors"; then
        echo "$1: does not build"
        missed=$((missed + 1))
        return
    fi
    for mode in starts lists runs "lists at widths that change" "runs at widths that change"; do
        case $mode in
        starts) options="--starts --count 20000" ;;
        lists) options="--lists --count 1500" ;;
        runs) options="--count 10000" ;;
        lists*) options="--width any --lists --count 3000" ;;
        runs*) options="--width any --count 20000" ;;
        esac
        # shellcheck disable=SC2086
        target/release/compare --program "$work/target/release/reference" --batch --seed 1 --show 0 $options \
            > "$work/report" 2>&1
        n=$(sed -n 's/^compared .*, differences //p' "$work/report")
        if [ "${n:-0}" != 0 ]; then
            echo "$1: found, $mode that differ: $n"
            return
        fi
    done
    echo "$1: NOT FOUND"
    missed=$((missed + 1))
}

slip "a retag visits node by node" 's/for byte in read {/for byte in read.first().into_iter().map(|\&first| first..*read.last().unwrap() + 1) {/; s/access(&mut after, number, byte..byte + 1, READ)?;/access(\&mut after, number, byte, READ)?;/'
slip "a release reaches descendants" 's/if above(node, other) {/if node == other {/'
slip "a write for code 8" 's/11 => change(/8 | 11 => change(/; s/8 | 10 | 13 => change/10 | 13 => change/'
slip "no access for code d" 's/8 | 10 | 13 => change/8 | 10 => change/'
slip "ReservedIm for a protected cell byte" 's/(true, false, _) => 7,/(true, false, true) => 7, (true, false, false) => 2,/'
slip "a zero-length load refused as dead" 's/if len == 0 {/if len == 0 \&\& !(f.has \&\& !self.allocs[f.allocation].live) {/'
slip "an end call releases its first entry only" 's/in entries {/in entries.into_iter().take(1) {/'
slip "a retag that adds no node" 's/after.push(Node { parent: f.node, protector, codes });/let _ = (\&codes, protector);/; s/for byte in read {/for byte in read.into_iter().take(0) {/'
slip "the mark goes on a dead allocation" 's/if !alloc.live {/if !alloc.live { alloc.nodes[node].protector = 0;/'
slip "a box is strongly protected" 's/} else if f.extra == 2 {/} else if f.extra == 9 {/'
slip "24 tested before the write" 's/if after.iter().any(prevents) {/if self.allocs[f.allocation].nodes.iter().any(prevents) {/'
slip "24 heeds weak protectors" 's/n.protector == 2 \&\&/n.protector > 0 \&\&/'
slip "size 0 inside another allocation is fine" 's/low == start || low < end/low < end/'
slip "the last address is free" 's/end < 1 << self.width/end <= 1 << self.width/'
slip "nine tuples" 's/if tuples > 8 {/if tuples > 9 {/'
slip "a mask of 4,097 bytes" 's/times as u64 > 4096 {/times as u64 > 4097 {/'
slip "a cell may touch the size's end only" 's/from + len > size {/from + len >= size {/'
slip "25 names the highest leak" 's/self.leaks().next().unwrap()/self.leaks().last().unwrap()/'
slip "25 names a heap allocation that is dead" 's/self.leaks().next().unwrap()/self.allocs.iter().position(|a| a.kind == 1).unwrap()/'
slip "25 names an allocation that is not on the heap" 's/self.leaks().next().unwrap()/self.allocs.iter().position(|a| a.live).unwrap()/'
slip "25 without a name" 's/third: Third::Leak(self.leaks().next().unwrap())/third: Third::None/'
slip "65 entries" 's/len() >= 64/len() >= 65/'
slip "1,025 nodes, by a retag" 's/self.nodes() >= 1024/self.nodes() >= 1025/'
slip "4,097 words" 's/words as u128 + size <= 4096/words as u128 + size <= 4097/'
slip "4,097 words after the fourth in a run" 's/MOST_WORDS: usize = 4096/MOST_WORDS: usize = 4097/'
slip "at most 4,096 words after the fourth in a list" 's/self.outcome(words);/self.outcome(words.filter(|words| words.len() <= 4 + MOST_WORDS));/'
slip "32,769 codes, by a retag" 's/a.words.len() > 32768/a.words.len() > 32769/'
slip "32,769 codes, by an allocation" 's/self.codes() as u128 + size <= 32768/self.codes() as u128 + size <= 32769/'
slip "1,025 nodes, by an allocation" 's/self.nodes() < 1024/self.nodes() < 1025/'
slip "129 allocations" 's/self.allocs.len() < 128/self.allocs.len() < 129/'
slip "14 only on live allocations" 's/if f.address < a.address {/if a.live \&\& f.address < a.address {/'
slip "4 not tested at length zero" 's/if f.has \&\& !made {/if f.has \&\& !made \&\& f.fourth != 0 {/'
slip "children visited in reverse" 's/waiting.extend(children\[node\].iter().rev());/waiting.extend(children[node].iter());/'
slip "6 not tested at length zero" 's/if f.address % (1 << f.exponent) != 0 {/if f.fourth > 0 \&\& f.address % (1 << f.exponent) != 0 {/'
slip "23 given as 21" 's/14, 22, 14, 22, 23, 14, 22, 14/14, 22, 14, 22, 21, 14, 22, 14/'
slip "26 given as 17" 's/11, 13, 13, 26\]/11, 13, 13, 17]/'
slip "27 given as 18" 's/11, 27, 27, 28\]/11, 18, 18, 28]/'
slip "27 for what was not read alone" 's/11, 27, 27, 28\]/11, 27, 18, 28]/'
slip "28 given as 19" 's/11, 27, 27, 28\]/11, 27, 27, 19]/'
slip "a foreign read leaves Unique" 's/\[0, 1, 2, 4, 4, 5, 6, 9/[0, 1, 2, 3, 4, 5, 6, 9/'
slip "a row's codes are not tested by 16" 's/ || given.iter().any(|&code| code < 6)//; s/\*code as usize - 6/(*code as usize).max(6) - 6/'
slip "a refused end call closes its frame" 's/let entries = self.frames\[frame\].clone().ok_or(2)?;/let entries = self.frames[frame].take().ok_or(2)?;/'
slip "the last address is free at narrow widths" 's/end < 1 << self.width/end < (1 << self.width) + (self.width < 64) as u128/'
slip "address plus size up to 2^64 at every width" 's/end < 1 << self.width/end < 1 << 64/'
slip "15 before 5 at half of the addresses" 's/let aligned = start > 0/if size >= 1 << (self.width - 1) { return Err(15); }\n        let aligned = start > 0/'
slip "5 for half of the addresses" 's/if !fits || clash {/if !fits || clash || size >= 1 << (self.width - 1) {/'
slip "2 for an alignment that no address has" 's/if f.address > last_address(self.width) {/if f.address > last_address(self.width) || f.kind == 0 \&\& f.exponent >= self.width {/'
slip "an address of 2^width in a load of length zero" 's/if f.address > last_address(self.width) {/if f.address > last_address(self.width) \&\& !(f.kind == 2 \&\& f.fourth == 0 \&\& f.address - 1 == last_address(self.width)) {/'
slip "the address is tested with provenance alone" 's/if f.address > last_address(self.width) {/if f.address > last_address(self.width) \&\& f.has {/'
slip "the address is tested without provenance alone" 's/if f.address > last_address(self.width) {/if f.address > last_address(self.width) \&\& !f.has {/'
slip "the address of a raw pointer is not tested" 's/if f.address > last_address(self.width) {/if f.address > last_address(self.width) \&\& !(f.kind == 4 \&\& f.extra > 2) {/'
slip "the address of a dereference test is not tested" 's/if f.address > last_address(self.width) {/if f.address > last_address(self.width) \&\& f.kind != 7 {/'
slip "address plus length is tested" 's/if f.address > last_address(self.width) {/if f.address > last_address(self.width) || f.kind == 7 \&\& f.address as u128 + f.fourth as u128 > 1 << self.width {/'
slip "the last address is too big" 's/if f.address > last_address(self.width) {/if f.address >= last_address(self.width) \&\& self.width < 64 {/'
slip "position width / 8" 's/position(word) < width \/ 8/position(word) <= width \/ 8/'
slip "positions up to 7 at every width" 's/position(word) < width \/ 8/position(word) < 8/'
slip "the highest position is malformed" 's/position(word) < width \/ 8/position(word) + 1 < width \/ 8/'
emptied='\*self = Reference { width, ..Reference::new() };'
slip "emptying leaves a frame open" "s/$emptied/let frames = self.frames.clone(); *self = Reference { width, ..Reference::new() }; self.frames[0] = frames[0].clone();/"
slip "emptying keeps the allocations" "s/$emptied/*self = Reference { width, allocs: self.allocs.clone(), ..Reference::new() };/"
slip "emptying keeps dead allocations' numbers" "s/$emptied/let mut dead = self.allocs.clone(); dead.retain(|a| !a.live); *self = Reference { width, allocs: dead, ..Reference::new() };/"
slip "emptying keeps the width" "s/$emptied/*self = Reference { width: self.width, ..Reference::new() };/"
slip "emptying checks for leaks" "s/$emptied/if self.leaks().next().is_some() { return Err(25); } *self = Reference { width, ..Reference::new() };/"
slip "emptying is refused while a frame is open" "s/$emptied/if self.frames.iter().flatten().next().is_some() { return Err(2); } *self = Reference { width, ..Reference::new() };/"
slip "extra 1 is 16 bits" 's/\[16, 32, 64\]\[extra/[16, 16, 64][extra/'
slip "extra 2 is 32 bits" 's/\[16, 32, 64\]\[extra/[16, 32, 32][extra/'
slip "extra 3 empties too" 's/zero \&\& self.extra < 3/zero \&\& self.extra < 4/; s/\[16, 32, 64\]\[extra/[16, 32, 64, 64][extra/'
slip "an emptying with a fourth word" 's/let zero = self.exponent == 0 \&\& self.address == 0 \&\& self.fourth == 0;/let zero = self.exponent == 0 \&\& self.address == 0;/'
slip "an emptying with an exponent" 's/let zero = self.exponent == 0 \&\& /let zero = /'
slip "an emptying with an address" 's/let zero = self.exponent == 0 \&\& self.address == 0 \&\& /let zero = self.exponent == 0 \&\& /'
slip "an emptying with a name" 's/self.no_provenance_fields() \&\& zero \&\& /zero \&\& /'
slip "a run starts at 32 bits" 's/frames: vec!\[None; 32\], width: 64/frames: vec![None; 32], width: 32/'

echo "not found: $missed"
[ "$missed" = 0 ]
