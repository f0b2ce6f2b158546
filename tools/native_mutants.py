"""The mutants of the Rust crate: wrong changes of the parts that are written by hand and of the eraser, and the tests that have to notice them."""

from typing import NamedTuple


class Mutant(NamedTuple):
    name: str
    tests: str  # the file of native/tests that notices it
    file: str
    old: str  # is once in the file
    new: str


SUPPORT = "native/src/support"
ROOTS = "native/src/roots"
STORE = "native/src/store"

HAND_WRITTEN = [
    Mutant("a copy of a deque has its front alone", "support", f"{SUPPORT}/clone.rs", "        T::append_clones(back, &mut copy)?;\n", "        let _ = back;\n"),
    Mutant("a deque that grows reserves nothing", "allocation_failures", f"{SUPPORT}/collections.rs", "            self.try_reserve(1)?;\n", ""),
    Mutant("a vector that grows reserves nothing", "allocation_failures", f"{SUPPORT}/vec.rs", "            self.try_reserve(1)?;\n", ""),
    Mutant("a vector with capacity has none", "allocation_failures", f"{SUPPORT}/vec.rs", "        vec.try_reserve_exact(count)?;\n", "        let _ = &mut vec;\n        let _ = count;\n"),
    Mutant("a slice that is appended reserves nothing", "allocation_failures", f"{SUPPORT}/vec.rs", "        self.try_reserve(values.len())?;\n", ""),
    Mutant("a resized vector is one longer", "support", f"{SUPPORT}/vec.rs", "        self.resize(count, value);\n", "        self.resize(count + 1, value);\n"),
    Mutant("a value for the front goes to the back", "support", f"{SUPPORT}/collections.rs", "        self.push_front(value);\n", "        self.push_back(value);\n"),
    Mutant("collecting leaves the last item out", "support", f"{SUPPORT}/iter.rs", "            vec.try_push(item)?;\n        }\n",
           "            vec.try_push(item)?;\n        }\n        vec.pop();\n"),
    Mutant("a digest leaves out the number of bytes", "log", f"{SUPPORT}/hash.rs", "self.rest | (self.len << 56)", "self.rest"),
    Mutant("a digest counts no whole words", "log", f"{SUPPORT}/hash.rs", "        self.len = self.len.wrapping_add(8 * words.len() as u64);\n", ""),
    Mutant("bitmaps are equal if they are as long", "api", "native/src/bitmap/pruned.rs", "self.get_chunk(index) == other.get_chunk(index)", "index < end"),
    Mutant("each operator that assigns is |=", "api", "native/src/bitmap/dense.rs", "self.$in_place(other);", "self.or(other);"),
    Mutant("each operator is |", "api", "native/src/bitmap/dense.rs", "expect_memory(fallible::$operator::$function(self, other))",
           "expect_memory(fallible::BitOr::bitor(self, other))"),
    Mutant("a batch that is out of memory reports a number", "allocation_failures", "native/src/bitmap/versions.rs",
           "            Ok(bitmap) => Ok(bitmap),\n            Err((_, Error::Memory(_))) => out_of_memory(),\n", "            Ok(bitmap) => Ok(bitmap),\n"),
    Mutant("a first step of a commit that is out of memory reports a number", "allocation_failures", "native/src/bitmap/versions.rs",
           "            Ok(prepared) => Ok(prepared),\n            Err((_, Error::Memory(_))) => out_of_memory(),\n", "            Ok(prepared) => Ok(prepared),\n"),
    Mutant("a prepared commit drops its edits", "prepared", "native/src/bitmap/versions.rs", "        self.try_commit()\n", "        self.into_dirty().abort()\n"),
    Mutant("a closure's batch is committed before it is edited", "commonware", "native/src/bitmap/versions.rs", "        edit(&mut batch);\n        batch.commit(commit_number)\n",
           "        let mut other = batch.clone();\n        edit(&mut other);\n        batch.set_range(0..0, true);\n        batch.commit(commit_number)\n"),
    Mutant("the error of a closure has no source", "api", "native/src/bitmap/versions.rs", "ApplyError::Batch(error) => error.source(),", "ApplyError::Batch(_) => None,"),
    Mutant("the numbers of commits end with the first ones", "api", "native/src/bitmap/versions.rs", "self.commits.next_back()", "self.commits.next()"),
    Mutant("a range of lengths has the end that it leaves out", "api", "native/src/bitmap/ranges.rs", "above.checked_sub(1)", "above.checked_sub(0)"),
    Mutant("a root has the digests of the retained chunks alone", "roots", "native/src/roots.rs", "    digests.extend_from_slice(pruned);\n", ""),
    Mutant("a root has bits past the length", "roots", "native/src/roots.rs", "    chunk[bits.div_ceil(8)..].fill(0);\n", ""),
    Mutant("a root counts no pruned chunk", "roots", "native/src/roots.rs", "bitmap.len(), bitmap.pruned_chunks() as u64, &", "bitmap.len(), 0, &"),
    Mutant("a version has the root of the current bitmap", "kept_roots", f"{ROOTS}/versions.rs", "self.0.root_at(number)", "self.0.root_at(number).map(|_| self.0.root())"),
    Mutant("a batch with roots appends another bit", "kept_roots", f"{ROOTS}/batch.rs", "self.0.edits().push(bit)", "self.0.edits().push(!bit)"),
    Mutant("a batch with roots that is out of memory reports a number", "allocation_failures", f"{ROOTS}/batch.rs",
           "            Err((_, Error::Memory(_))) => out_of_memory(),\n", ""),
    Mutant("a store acknowledges before the sync", "store_crashes", f"{STORE}/stored_log.rs",
           "        self.files.sync(Name::Log)?;\n        self.write_receipt(Kind::Kept, place)?;\n", "        self.write_receipt(Kind::Kept, place)?;\n"),
    Mutant("a store writes no receipt", "store_crashes", f"{STORE}/stored_log.rs",
           "        self.files.sync(Name::Log)?;\n        self.write_receipt(Kind::Kept, place)?;\n", "        self.files.sync(Name::Log)?;\n        self.place = place;\n"),
    Mutant("a receipt is not synced", "store_crashes", f"{STORE}/stored_log.rs",
           "        self.files.write_at(Name::Receipts, at, block)?;\n        self.files.sync(Name::Receipts)\n",
           "        self.files.write_at(Name::Receipts, at, block)\n"),
    Mutant("a store is written after a failed sync", "store_crashes", f"{STORE}/stored_log.rs", "        self.is_read_only = true;\n        calls(self)?;\n", "        calls(self)?;\n"),
    Mutant("a new log is not synced", "store_crashes", f"{STORE}/stored_log.rs", "        self.files.sync(Name::New)\n", "        Ok(())\n"),
    Mutant("a new log replaces the log without a receipt", "store_crashes", f"{STORE}/stored_log.rs", "            log.write_receipt(Kind::Begun, place)?;\n", ""),
    Mutant("a log is replaced while entries are not synced", "store_crashes", f"{STORE}/stored_log.rs",
           "        self.sync()?;\n        if let Err(error) = self.write_new(bytes)", "        self.check_writable()?;\n        if let Err(error) = self.write_new(bytes)"),
    Mutant("a new name is not synced", "store_crashes", f"{STORE}/stored_log.rs", "            log.files.sync_folder()?;\n", ""),
    Mutant("what a failed sync has left in memory is taken for kept", "store_crashes", f"{STORE}/stored_log.rs", "            self.files.write_at(Name::Log, from.at, &bytes[from.at as usize..place.at as usize])?;\n", ""),
    Mutant("a receipt is written over the one that applies", "store_crashes", f"{STORE}/stored_log.rs", "            self.receipts = self.receipts.of_the_log(from);\n", ""),
    Mutant("a receipt that may be in memory alone is taken for kept", "store_crashes", f"{STORE}/stored_log.rs", "            return self.write_block(at, &block);\n",
           "            let _ = (at, block);\n            return Ok(());\n"),
    Mutant("a log that is cut back has one receipt", "store_crashes", f"{STORE}/stored_log.rs",
           "        self.files.cut_to(Name::Log, place.at)?;\n        self.acknowledge(place)\n", "        self.files.cut_to(Name::Log, place.at)?;\n        self.files.sync(Name::Log)\n"),
    Mutant("a torn end stays", "store_crashes", f"{STORE}/stored_log.rs", "        if is_cut {\n", "        if is_cut && place.at == 0 {\n"),
    Mutant("a store that is dropped syncs nothing", "store", f"{STORE}/stored_log.rs", "        let _ = self.sync();\n", ""),
    Mutant("a damaged receipt counts as none", "store_crashes", f"{STORE}/receipts.rs",
           "=> first.number == 1,\n            _ => false,\n", "=> first.number == 1,\n            _ => self.whole()[0].is_some(),\n"),
    Mutant("a log that is gone is begun again", "store_crashes", f"{STORE}/receipts.rs", "            [Block::Empty, _] => true,\n            _ => false,\n", "            _ => true,\n"),
    Mutant("a file of another program is removed", "store", f"{STORE}/opening.rs", "        let bytes = read(&mut *files, Name::Log)?;\n",
           "        files.remove_new()?;\n        let bytes = read(&mut *files, Name::Log)?;\n"),
    Mutant("both receipts are in one block", "store_crashes", f"{STORE}/receipts.rs", "(self.number % 2) as usize", "(self.number / u64::MAX) as usize"),
    Mutant("a receipt of the same log compacted stays", "store_crashes", f"{STORE}/receipts.rs", "before.place == acknowledged)", "before.place == acknowledged && last.place != acknowledged)"),
    Mutant("a log that was not replaced is not known", "store_crashes", f"{STORE}/receipts.rs", "before.filter(|_| last.kind == Kind::Begun)", "before.filter(|_| last.kind == Kind::Kept)"),
    Mutant("damage is cut off", "store_crashes", f"{STORE}/opening.rs", "        (_, Some(error)) => Err(OpenError::Log(error)),\n", "        (_, Some(_)) => Ok((found, None)),\n"),
    Mutant("a missing end is not missed", "store_crashes", f"{STORE}/opening.rs", "if place.at > good => Err(OpenError::MissingEnd { good, acknowledged: place.at })", "if place.at > good => Ok((found, None))"),
    Mutant("a damaged entry without an effect is cut off", "store_crashes", f"{STORE}/opening.rs", "damage: Damage::Head | Damage::Digest }", "damage: Damage::Head | Damage::Digest | Damage::Entry(_) }"),
    Mutant("a second store gets the lock", "store", f"{STORE}/files.rs", "Err(TryLockError::WouldBlock) => Ok(false)", "Err(TryLockError::WouldBlock) => Ok(true)"),
    Mutant("a compacted file has other permissions", "store", f"{STORE}/files.rs", "            new.set_permissions(log.metadata()?.permissions())?;\n", "            log.metadata()?;\n"),
    Mutant("a batch that is dropped takes the bitmap", "store", f"{STORE}/batch.rs", "            self.store.bitmap = Some(batch.abort());\n", "            drop(batch);\n"),
    Mutant("a commit lists no chunk", "store", f"{STORE}/encoding.rs", "            push_chunk(&mut out, chunk as u64, &bytes)?;\n", "            let _ = bytes;\n            let _ = push_chunk::<N>;\n"),
    Mutant("a rewind is applied and not written", "store", "native/src/store.rs", "        self.log.append(&encode_number(REWIND, number)?)?;\n", "        let _ = encode_number(REWIND, number)?;\n"),
    Mutant("a log is never compacted by itself", "store", "native/src/store.rs", "if position > most && self.compact().is_ok()", "if position == most && self.compact().is_ok()"),
]

# Where the text of each erased source ends up, so that a mutant of the eraser can change it.
RESULT = '    return re.sub(r"\\n{3,}", "\\n\\n", text)\n'


def rewriting(old, new):
    """A change of the eraser that also makes `new` of the pattern `old` in all that it writes."""
    return "tools/erasures.py", RESULT, f'    return re.sub({old!r}, {new!r}, re.sub(r"\\n{{3,}}", "\\n\\n", text))\n'


ERASER = [
    Mutant("the eraser drops a statement", "api", *rewriting(r"deque::clear_tail\([^;]*;", "")),
    Mutant("the eraser drops statements that bind nothing", "wrapped", *rewriting(r"\n\s*drop\([^;]*;", "")),
    # The chunks of a dense bitmap are always stored in one part, so only those of a bitmap with a pruned prefix show this.
    Mutant("the eraser exchanges two names", "wrapped", *rewriting(r"let \(front, back\) = slices\(chunks\)", "let (back, front) = slices(chunks)")),
    Mutant("the eraser exchanges two calls", "prepared", *rewriting(r"(restore_extent\(current[^;]*;)\s*(write_back\([^;]*;)", r"\2 \1")),
    Mutant("the eraser turns a comparison", "store", *rewriting(r"if len < n \{", "if len <= n.wrapping_sub(2) {")),
    Mutant("the eraser writes no assertion of retained positions", "panics", "tools/conditions.py", 'Form("retained", r"IsRetained N self (\\w+)", [',
           'Form("retained", r"IsRetained N self (\\w+)", 0 * ['),
    Mutant("the eraser writes no assertion of ranges", "panics", "tools/conditions.py", '[("range.end <= self.len()",', '0 * [("range.end <= self.len()",'),
    Mutant("the eraser writes no assertion of the bytes of logs", "panics", "tools/conditions.py", """[("!$1.is_empty()", '"$1 is empty"')]""", "[]"),
    Mutant("the eraser writes no assertion in impls of traits", "panics", "tools/erase.py",
           "            return [ghost_clause(tokens, scope, c) for c in self.traits.get((implemented.group(1), function.name), [])]\n",
           "            return []\n"),
    Mutant("the eraser keeps no message of the original", "panics", "tools/conditions.py",
           "            messages = MESSAGES.get(key, [message for _, message in form.assertions])\n",
           "            messages = [message for _, message in form.assertions]\n"),
    Mutant("the eraser exchanges the fields of an error", "api", "tools/erasures.py", 'message = re.sub(r"\\{(\\d+)", r"{field\\1", message)',
           'message = re.sub(r"\\{(\\d+)", r"{field0", message).replace("is out of", "is in")'),
    Mutant("the eraser leaves out the sources of errors", "api", "tools/erasures.py", "    if not inside:\n", "    if inside is not None:\n"),
    Mutant("the eraser makes a source of an error that the message has", "api", "tools/erasures.py", "if inside[0] in used_in(message) else", "if False else"),
    Mutant("the eraser leaves the entry of a rewind that fails", "allocation_failures", *rewriting(r"log\.cut_back\(len, place\);", "")),
    Mutant("the eraser takes each log for whole", "log", *rewriting(r"torn: !rest\.is_empty\(\)", "torn: false")),
    Mutant("the eraser exchanges two digests", "log", *rewriting(r"digest_of_replaced\(older, chunks\)", "digest_of(chunks)")),
    Mutant("the eraser exchanges the digests of a node", "roots", *rewriting(r"node_digest\(hash, beside, &right\)", "node_digest(hash, &right, beside)")),
    Mutant("the eraser takes too many digests of a proof", "roots", *rewriting(r"if count > 64 \{", "if count > 65 {")),
    Mutant("the eraser rewinds no digests", "kept_roots", *rewriting(r"let Ok\(digests\) = copy\.rewind_to\(number\)", "let Ok(digests) = copy.try_clone()")),
    Mutant("the eraser writes no assertion of the chunk of a bitmap with roots", "panics", "tools/conditions.py",
           '[("$1 < self.bits.current().chunks_len()",', '0 * [("$1 < self.bits.current().chunks_len()",'),
    Mutant("the eraser writes no assertion of the index of a leaf", "panics", "tools/conditions.py",
           """[("$1 < $2", '"index {} out of bounds (len: {})", $1, $2')]""", "[]"),
    Mutant("the eraser writes another default width", "api", "tools/erase.py", '("bitmap_core", "BitMap"): "DEFAULT_CHUNK_SIZE"', '("bitmap_core", "BitMap"): "4"'),
]
