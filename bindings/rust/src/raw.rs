//! The calls as the C header has them. Where the archive is not linked, functions of the same shape refuse everything.

#[cfg(test)]
mod tests;

/// Declares the calls of the archive, or what stands for them.
macro_rules! calls {
    ($(fn $name:ident($($argument:ident: $type:ty),* $(,)?);)*) => {
        #[cfg(grodvejas_linked)]
        extern "C" {
            $(pub fn $name($($argument: $type),*) -> u32;)*
        }
        $(
            #[cfg(not(grodvejas_linked))]
            #[allow(clippy::too_many_arguments)]
            pub unsafe fn $name($(_: $type),*) -> u32 {
                crate::Refusal::UNAVAILABLE.number
            }
        )*
    };
}

calls! {
    fn grod_add(a: *const u32, a_n: usize, b: *const u32, b_n: usize, out: *mut u32, out_n: usize, count: *mut usize);
    fn grod_cut(curve: *const u32, curve_n: usize, period: u32, out: *mut u32, out_n: usize, count: *mut usize);
    fn grod_fit(
        demand: *const u32, demand_n: usize, supply: *const u32, supply_n: usize, left: *mut u32, left_room: usize, served: *mut u32,
        served_room: usize, rest: *mut u32, rest_room: usize, left_n: *mut usize, served_n: *mut usize, rest_n: *mut usize,
    );
    fn grod_time_to_provide(curve: *const u32, curve_n: usize, amount: u32, instant: *mut u32);
    fn grod_read(
        text: *const u8, text_n: usize, line: *mut u32, place: *mut u32, span: *mut u32, servers_n: *mut usize, tasks_n: *mut usize,
        servers: *mut [u32; 3], tasks: *mut [u32; 6],
    );
    fn grod_write(
        span: u32, servers_n: usize, tasks_n: usize, servers: *const [u32; 3], tasks: *const [u32; 6], out: *mut u8, out_n: usize, count: *mut usize,
    );
    fn grod_step(
        text: *const u8, text_n: usize, tick: *mut u32, budgets: *mut u32, waiting: *mut u32, line: *mut u32, place: *mut u32,
        holder: *mut u32, runner: *mut u32,
    );
    fn grod_step_table(
        span: u32, servers_n: usize, tasks_n: usize, servers: *const [u32; 3], tasks: *const [u32; 6], tick: *mut u32, budgets: *mut u32,
        waiting: *mut u32, holder: *mut u32, runner: *mut u32,
    );
    fn grod_who_at(
        text: *const u8, text_n: usize, tick: u32, free: *mut u32, free_n: usize, sum: *mut u32, sum_n: usize, part: *mut u32, part_n: usize,
        held: *mut u32, held_n: usize, running: *mut u32, running_n: usize, spare: *mut u32, spare_n: usize, line: *mut u32, place: *mut u32,
        holder: *mut u32, runner: *mut u32,
    );
    fn grod_analyse(
        text: *const u8, text_n: usize, free: *mut u32, free_n: usize, sum: *mut u32, sum_n: usize, part: *mut u32, part_n: usize,
        held: *mut u32, held_n: usize, running: *mut u32, running_n: usize, spare: *mut u32, spare_n: usize, line: *mut u32, place: *mut u32,
        span: *mut u32, servers_n: *mut usize, tasks_n: *mut usize, servers: *mut [u32; 2], tasks: *mut [u32; 3], margin: *mut i32,
    );
    fn grod_report(text: *const u8, text_n: usize, out: *mut u8, out_n: usize, count: *mut usize);
}
