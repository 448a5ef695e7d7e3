#!/bin/sh
# Shows that `lent` finds slips: each edit below breaks what it holds the library against in one place, a sentence of
# document 01 mostly, and it has to find a difference. Needs ./build.sh -p lent first.
set -u
cd "$(dirname "$0")/.."
export RUSTC_BOOTSTRAP=1
export TREE_BORROWS_LIB="${TREE_BORROWS_LIB:-$PWD/../crates/tree_borrows/out}"
work=target/lent-slips
rm -rf "$work/src" "$work/examples"
mkdir -p "$work/src" "$work/examples"
cp -r runs tools lent "$work/src/"
cp -r ../examples/rust "$work/examples/"
printf '[workspace]\nresolver = "2"\nmembers = ["runs", "tools", "lent"]\n' > "$work/src/Cargo.toml"
missed=0

# slip NAME FILE SED-EXPRESSION
slip() {
    file=$work/src/lent/src/$2
    sed -e "$3" "lent/src/$2" > "$file"
    if cmp -s "lent/src/$2" "$file"; then
        echo "$1: the edit changes nothing"
        missed=$((missed + 1))
    elif ! cargo build --release --offline --quiet -j 1 --manifest-path "$work/src/Cargo.toml" \
        --target-dir "$work/target" -p lent 2> "$work/errors"; then
        echo "$1: does not build"
        missed=$((missed + 1))
    elif timeout 20 "$work/target/release/lent" --no-oracle --count 4000 --show 0 > "$work/report" 2>&1; then
        echo "$1: NOT FOUND"
        missed=$((missed + 1))
    else
        differences=$(sed -n 's/^compared .* with the reference, //p' "$work/report")
        echo "$1: found, ${differences:-the reference fails on such a memory}"
    fi
    cp "lent/src/$2" "$file"
}

slip "longer buffers" buffers.rs 's/lengths == \[/lengths >= [/'
slip "state 3" buffers.rs 's/state == 1 || state == 2/(1..4).contains(\&state)/'
slip "kind 5" buffers.rs 's/kind < 5/kind < 6/'
slip "exponent 30" buffers.rs 's/exponent < 30/exponent < 31/'
slip "address 0" buffers.rs 's/address > 0 && //'
slip "misaligned" buffers.rs 's/ && address % (1 << exponent) == 0//'
slip "end at 2^width" buffers.rs 's/(size as u128) < 1 << width/(size as u128) <= 1 << width/'
slip "an end beyond the last address of a dead allocation" buffers.rs 's/(size as u128) < 1 << width/(size as u128) < 1 << if state == 2 { 64 } else { width }/'
slip "width 8" buffers.rs 's/\[16, 32, 64\].contains/[8, 16, 32, 64].contains/'
slip "width 63" buffers.rs 's/\[16, 32, 64\].contains/[16, 32, 63, 64].contains/'
slip "a width cut to 32 bits" buffers.rs 's/\[16, 32, 64\].contains(&b.width)/[16, 32, 64].contains(\&(b.width as u32))/; s/b.width)/b.width as u32 as u64)/'
slip "64 bits alone" buffers.rs 's/\[16, 32, 64\].contains/[64].contains/'
slip "position width / 8" buffers.rs 's/(word >> 27 & 7) < width/(word >> 27 \& 7) <= width/'
slip "positions in dead allocations" buffers.rs 's/allocation_fits(a, m.width)/allocation_fits(a, if a.live { m.width } else { 64 })/'
slip "a node is its own parent" buffers.rs 's/node.parent < number/node.parent <= number/'
slip "a root with a parent" buffers.rs 's/a.nodes\[0\].parent == 0 && //'
slip "a protected root" buffers.rs 's/ && a.nodes\[0\].protector == 0//'
slip "protector 3" buffers.rs 's/node.protector < 3/node.protector < 4/'
slip "code f" buffers.rs 's/0\.\.=14,/0..=15,/'
slip "protected codes in an unprotected row" buffers.rs 's/(true, 0) => 0\.\.=5/(true, 0) => 0..=14/'
slip "unprotected codes in a protected row" buffers.rs 's/(true, _) => 6\.\.=14/(true, _) => 0..=14/'
slip "codes of a dead allocation like those of a live one" buffers.rs 's/(false, _) => 0\.\.=14,/(false, 0) => 0..=5, (false, _) => 6..=14,/'
slip "an uninitialised byte that is not 0" buffers.rs 's/0 | 1 => word == 0/0 | 1 => true/'
slip "a middle field without provenance" buffers.rs 's/2 => word << 2 >> 10 == 0/2 => true/'
slip "overlapping" buffers.rs 's/ && !overlapping(&m)//'
slip "dead ones overlap too" buffers.rs 's/m.allocs.iter().filter(|a| a.live).collect()/m.allocs.iter().collect()/'
slip "touching is overlapping" buffers.rs 's/(a.address as u128) < end(b)/(a.address as u128) <= end(b)/'
slip "equal starts at size 0" buffers.rs 's/a.address == b.address || //'
slip "words that start elsewhere" buffers.rs 's/if \[word, node, code\] != \[words as u64, /if [node, code] != [/'
slip "nodes that start elsewhere" buffers.rs 's/if \[word, node, code\] != \[words as u64, nodes as u64, /if [word, code] != [words as u64, /'
slip "codes that start elsewhere" buffers.rs 's/if \[word, node, code\] != \[words as u64, nodes as u64, codes as u64\]/if [word, node] != [words as u64, nodes as u64]/'
slip "behind the records" buffers.rs 's/b.allocs\[RECORD \* m.allocs.len()..\].iter().all(|&x| x == 0)/true/'
slip "behind the parents" buffers.rs 's/b.parents\[nodes..\].iter().all(|&x| x == 0)/true/'
slip "behind the protectors" buffers.rs 's/b.protectors\[nodes..\].iter().all(|&x| x == 0)/true/'
slip "behind the words" buffers.rs 's/b.words\[words..\].iter().all(|&x| x == 0)/true/'
slip "behind the codes" buffers.rs 's/b.codes\[codes..\].iter().all(|&x| x == 0)/true/'
slip "more than 64 places" lent.rs 's/self.places.len() == PLACES/self.places.len() >= PLACES/'
slip "a shorter working area" call.rs 's/lent.area.len() == AREA/lent.area.len() <= AREA/'
slip "the working area stays" call.rs 's/Call::EndCall => after.area.fill(0)/Call::EndCall => {}/'
slip "1 clears the working area" call.rs 's/return (refused(1), lent.clone());/return (refused(1), Lent { area: vec![0; lent.area.len()], ..lent.clone() });/'
slip "a retag enters nothing" call.rs 's/Call::Retag { .. } => after.frame.write(.*/Call::Retag { .. } => {}/'
slip "loaded words one place late" call.rs 's/+ at.address - own\[3\];/+ at.address - own[3] + 1;/'
slip "a pointer's flag of 2" call.rs 's/at.provenance > 1/at.provenance > 2/'
slip "a retag's flag of 2" call.rs 's/|flag| \*flag > 1/|flag| *flag > 2/'
slip "a name without provenance" call.rs 's/ || at.provenance == 0 && (at.allocation, at.node) != (0, 0)//'
slip "new leaves the memory" call.rs 's/Lent { buffers: encode(&empty), ..lent.clone() }/{ let _ = empty; lent.clone() }/'
slip "new takes any width" call.rs 's/ || !has_width(&lent.buffers)//; s/has_width, //'
slip "new makes 64 bits" call.rs 's/let empty = Reference { width: .*/let empty = Reference::new();/'
slip "the address of a large allocation is not tested" call.rs 's/ || \*address > last_address(m.width)//; s/last_address, //'
slip "new_call leaves the places" call.rs 's/Lent { frame: Frame::of(&\[\]), ..lent.clone() }/lent.clone()/'

echo "not found: $missed"
[ "$missed" = 0 ]
