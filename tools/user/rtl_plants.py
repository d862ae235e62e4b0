"""Mistakes that tools/user/rtl_compare.py puts into the wrappers of examples/rtl, or into the core
and the parts below them, to show that it sees each one."""
from typing import NamedTuple


class Plant(NamedTuple):
    """A mistake: a name, the wrapper with which it is seen, the file, the text that stands there
    once, what is put in its place, and what is wrong then."""

    name: str
    wrapper: str
    file: str
    old: str
    new: str
    says: str


PLANTS = [
    # Enables
    Plant(
        "enable-always",
        "auto-increment",
        "auto-increment.v",
        "  ixt_setaddr setaddr (\n      .clk(clk), .en1(rd_moves)",
        "  ixt_setaddr setaddr (\n      .clk(clk), .en1(1'b1)",
        "a module takes what stands in RD while its own cell stays in EX",
    ),
    Plant(
        "enable-next",
        "square-root",
        "square-root.v",
        ".en1(rd_moves), .en2(ex_moves)",
        ".en1(rd_moves), .en2(mem_moves)",
        "an enable is that of the next stage",
    ),
    Plant(
        "enable-tail",
        "square-root",
        "square-root.v",
        ".en4(goes_on)",
        ".en4(mem_moves)",
        "the enable of a tight module in WB is that of MEM",
    ),
    Plant(
        "enable-retires",
        "two-decoupled",
        "two-decoupled.v",
        ".en3(mem_moves), .en4(slow_retires)",
        ".en3(mem_moves), .en4(quick_retires)",
        "the enable of a decoupled module in WB is that of another behaviour",
    ),
    # Inputs and outputs
    Plant(
        "input-late",
        "zero-overhead-loop",
        "zero-overhead-loop.v",
        ".in0(rd_pc)",
        ".in0(ex_pc)",
        "an input has the value of the next stage",
    ),
    Plant(
        "condition-alone",
        "auto-increment",
        "auto-increment.v",
        "ex_access = ex_lwinc && lwinc_load",
        "ex_access = lwinc_load",
        "a condition counts for other instructions too",
    ),
    Plant(
        "output-late",
        "auto-increment",
        "auto-increment.v",
        "      result <= lwinc_v;",
        "      result <= result;",
        "an output is not carried to WB",
    ),
    # Custom registers
    Plant(
        "write-while-held",
        "auto-increment",
        "auto-increment.v",
        ".reset(reset), .ex_moves(ex_moves)",
        ".reset(reset), .ex_moves(ex_valid)",
        "a custom register is written in each cycle in which the cell is in EX",
    ),
    Plant(
        "kept-for-future",
        "auto-increment",
        "auto-increment.v",
        ".in0(address_future)",
        ".in0(address_kept)",
        "an instruction reads the value at retirement in place of the newest",
    ),
    Plant(
        "block-first",
        "zero-overhead-loop",
        "zero-overhead-loop.v",
        ".ex_v(ex_setup && setup_count_c ? setup_count : zol_count)",
        ".ex_v(zol_count_c ? zol_count : setup_count)",
        "of two writes of a custom register that of the block counts",
    ),
    # Flushes
    Plant(
        "flush-fetch",
        "zero-overhead-loop",
        "core_five.v",
        "wire f_flushed = redirects && f_valid;",
        "wire f_flushed = 1'b0;",
        "the cell in F is not flushed",
    ),
    Plant(
        "flush-execute",
        "indirect-jump",
        "core_five.v",
        "wire ex_flushed = redirects && ex_younger;",
        "wire ex_flushed = 1'b0;",
        "the cell in EX is not flushed by a late jump",
    ),
    Plant(
        "late-forgotten",
        "indirect-jump",
        "indirect-jump.v",
        "assign rd_late = rd_ijmp;",
        "assign rd_late = 1'b0;",
        "the core does not know of a late jump, so nothing is flushed",
    ),
    # Holds
    Plant(
        "tail-short",
        "square-root",
        "square-root.v",
        ".CYCLES(8)",
        ".CYCLES(7)",
        "a tight cell retires a cycle too early",
    ),
    Plant(
        "operand-forgotten",
        "square-root",
        "square-root.v",
        "assign rd_reads1 = rd_sqrt;",
        "assign rd_reads1 = 1'b0;",
        "no cell waits for the operand of an instruction",
    ),
    Plant(
        "result-forgotten",
        "square-root",
        "square-root.v",
        "assign rd_writes = rd_sqrt;",
        "assign rd_writes = 1'b0;",
        "no cell waits for the result of an instruction",
    ),
    Plant(
        "board-forgotten",
        "two-decoupled",
        "core_five.v",
        "spawned = owed;",
        "spawned = 32'd0;",
        "no cell waits for what a unit owes",
    ),
    Plant(
        "port-forgotten",
        "two-decoupled",
        "core_five.v",
        "wire wb_port = wb_does[WRITES] && wb_rd != 5'd0 && unit_writes;",
        "wire wb_port = 1'b0;",
        "two writes of registers in one cycle",
    ),
    Plant(
        "drain-forgotten",
        "two-decoupled",
        "two-decoupled.v",
        "assign unit_busy = slow_busy || quick_busy || (wb_valid && (wb_slow || wb_quick));",
        "assign unit_busy = slow_busy || quick_busy;",
        "a stop does not wait for a write that is owed",
    ),
    # Late writes
    Plant(
        "late-write-lost",
        "two-decoupled",
        "two-decoupled.v",
        "assign unit_result_c = slow_finished ? slow_c : quick_c;",
        "assign unit_result_c = slow_finished && slow_c;",
        "the late write of a unit is lost",
    ),
    Plant(
        "late-write-elsewhere",
        "two-decoupled",
        "two-decoupled.v",
        "assign unit_register = slow_finished ? slow_number : quick_number;",
        "assign unit_register = wb_word[11:7];",
        "a late write goes to the register of the cell in WB",
    ),
    # What only the mixed extension has
    Plant(
        "custom-forgotten",
        "mixed",
        "mixed.v",
        "assign ex_hold = (ex_loadtotal || ex_addtotal) &&",
        "assign ex_hold = 1'b0 &&",
        "no cell waits for a custom register that is written late",
    ),
    Plant(
        "board-custom-forgotten",
        "mixed",
        "mixed.v",
        "assign rd_hold = (rd_addtotal || rd_power) &&",
        "assign rd_hold = 1'b0 &&",
        "no cell waits for a custom register that a unit owes",
    ),
    Plant(
        "start-forgotten",
        "mixed",
        "mixed.v",
        ".START(8'd3)",
        ".START(8'd0)",
        "a custom register starts at 0",
    ),
    Plant(
        "late-condition",
        "mixed",
        "mixed.v",
        "assign unit_result_c = power_finished ? power_c : quick_c;",
        "assign unit_result_c = 1'b1;",
        "a unit writes though its condition is 0",
    ),
    Plant(
        "store-condition",
        "mixed",
        "mixed.v",
        "(ex_storehalf && storehalf_c)",
        "ex_storehalf",
        "a store is made though its condition is 0",
    ),
    Plant(
        "jump-condition",
        "mixed",
        "mixed.v",
        "assign ex_jumps = ex_skip && skip_c;",
        "assign ex_jumps = ex_skip;",
        "a jump is made though its condition is 0",
    ),
    Plant(
        "unit-not-frozen",
        "mixed",
        "mixed.v",
        ".granted(!power_finished)",
        ".granted(1'b1)",
        "two units write in one cycle, and one of the writes is lost",
    ),
    Plant(
        "unit-full",
        "mixed",
        "mixed.v",
        "assign wb_hold = (wb_power && power_frozen) || (wb_quick && quick_frozen);",
        "assign wb_hold = 1'b0;",
        "a cell retires into a frozen unit",
    ),
]
