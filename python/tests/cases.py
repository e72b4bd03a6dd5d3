"""The cases of the package's tests, which tests/clients runs."""
import hashes
import hostile
import installing
import programs
import redoing
import served
import stores
import transfers

FUNCTIONS = (
    stores.each_command, stores.each_refusal, stores.wrong_arguments, stores.refusals_are_values,
    stores.buffers_of_all_kinds, stores.by_threads, stores.closed_stores, stores.stores_after_a_fork, stores.memory_that_is_freed,
    stores.stores_without_memory, stores.interrupts_at_any_moment,
    transfers.uploads_of_all_sources, transfers.uploads_that_fail, transfers.uploads_side_by_side, transfers.files_that_go_one_way,
    transfers.uploads_with_blocks, transfers.writes_after_a_refusal, transfers.slow_files, transfers.objects_as_files, transfers.reads_into_buffers,
    transfers.iterates, transfers.by_asyncio,
    redoing.redone, redoing.lines_that_are_run, redoing.pages_of_objects, redoing.renewed_stores, redoing.logs_of_stores, redoing.faults_of_logs, redoing.renewals_that_fail,
    redoing.torn_ends, redoing.logs_that_are_changed, redoing.damaged_logs, redoing.damaged_objects, redoing.folders_that_are_none,
    served.over_a_socket, served.over_a_forwarded_socket, served.servers_that_pass_no_pipes, served.over_several_runs,
    served.places_that_are_wrong, served.servers_that_end, served.clients_that_are_closed,
    served.interrupts_at_any_moment, served.commands_that_take_too_long,
    hostile.answers_that_lie, hostile.gets_that_fail, hostile.gets_that_are_ended, hostile.processes_that_inherit,
    hostile.stores_that_are_dropped, hostile.closes_beside_a_fork, hostile.closes_beside_a_thread,
    hostile.stores_for_asyncio_that_are_closed,
    programs.puts_and_gets, programs.tenants_and_limits, programs.reserves_no_more_than_it_reads, programs.names_of_all_bytes, programs.outputs_of_all_kinds,
    programs.says_what_is_wrong, programs.ends_on_an_interrupt, programs.ends_while_it_starts, programs.ends_while_it_ends,
    installing.installs, installing.names, installing.without_library, installing.places_of_the_library,
    *hashes.CASES,
)
CASES = [(f"{case.__module__}: {case.__name__.replace('_', ' ')}", case) for case in FUNCTIONS]
