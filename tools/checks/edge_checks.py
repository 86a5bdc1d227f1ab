"""Checks of the lines that no contract reaches: what the built program does with a real disk, its streams and its
scratch file.
"""
from checks.append_pairs import pairs_in_gate
from checks.edge_calls import failing_calls, interrupted_calls, limit_of_a_file, link_for_log, log_made_meanwhile
from checks.edge_calls import no_memory, no_random_bytes, order_of_calls, order_of_long_runs, pipe_for_log
from checks.edge_calls import rest_of_input
from checks.imported_calls import imported_calls
from checks.lock_checks import changes_at_each_call, changes_between_frames, changes_while_opened, lock_of_another
from checks.lock_checks import lock_of_a_run
from checks.mount_checks import log_mounted_for_reading, log_on_another_device
from checks.scratch_checks import bodies_read_back, folder_of_the_scratch_file, limit_of_the_scratch_file
from checks.scratch_checks import names_that_are_taken, no_scratch_file, nothing_is_left, scratch_calls
from checks.scratch_checks import versions_read_back
from checks.stream_checks import input_that_does_not_wait, output_that_does_not_wait

# Those of the log and the streams, and those of the scratch file; of each the short ones come first.
LOG_PARTS = [
    imported_calls, order_of_calls, order_of_long_runs, lock_of_another, lock_of_a_run, changes_while_opened,
    changes_between_frames, pairs_in_gate, log_made_meanwhile, log_mounted_for_reading, log_on_another_device,
    rest_of_input, pipe_for_log, link_for_log, input_that_does_not_wait, output_that_does_not_wait, limit_of_a_file,
    no_memory, no_random_bytes, interrupted_calls, failing_calls, changes_at_each_call,
]
SCRATCH_PARTS = [
    no_scratch_file, bodies_read_back, versions_read_back, limit_of_the_scratch_file, folder_of_the_scratch_file,
    names_that_are_taken, nothing_is_left, scratch_calls,
]
PARTS = LOG_PARTS + SCRATCH_PARTS
