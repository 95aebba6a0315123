"""All facts, in the order in which they run."""
import facts_alone
import facts_boot
import facts_devices
import facts_entries
import facts_frames
import facts_harts
import facts_heap
import facts_loop
import facts_memory
import facts_reset
import facts_stack
import facts_start
import facts_traps
import facts_waits
import facts_worlds

SUBJECTS = (facts_traps, facts_entries, facts_worlds, facts_frames, facts_alone, facts_memory, facts_reset, facts_harts, facts_waits, facts_heap,
            facts_start, facts_devices, facts_boot, facts_loop, facts_stack)
PROOFS = [proof for subject in SUBJECTS for proof in subject.PROOFS]
