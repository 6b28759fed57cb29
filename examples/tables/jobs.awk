# jobs.awk: a table of jobs to a net. Each row is a job: PRODUCT,MACHINE,TIME. Each product takes its rows in order, and
# each machine its rows in turn, again and again. A job is named PRODUCT_MACHINE, with _2 behind a second visit, and the
# end of a product PRODUCT_done.

!is_row($0) { next }
{
    product = name_of(1, "product"); machine = name_of(2, "machine"); visit = ++visits[product, machine]
    job = product "_" machine (visit > 1 ? "_" visit : "")
    if (job in time) refuse(FNR, "job " job " stands in another row")
    time[job] = number(3, "time"); add_transition(job)
    if (product in route) add_place("to", route[product], job, time[route[product]], 0); else products[++kinds] = product
    if (machine in last) add_place("turn", last[machine], job, time[last[machine]], 0)
    else { machines[++many] = machine; first[machine] = job }
    route[product] = job; last[machine] = job
}
END {
    if (!many) refuse(0, "there is no row")
    for (i = 1; i <= many; i++) { m = machines[i]; add_place("turn", last[m], first[m], time[last[m]], 1) }
    for (i = 1; i <= kinds; i++) { p = products[i]; if (p "_done" in time) refuse(0, "job " p "_done has the name of the end of " p); add_place("to", route[p], p "_done", time[route[p]], 0) }
    print_net()
}
