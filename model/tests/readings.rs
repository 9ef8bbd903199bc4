//! Where document 01 or a request leaves a choice: the reading taken, by a kit and its listing
//! worked out by hand, and that the kit tells the other reading apart.

mod common;
use common::{bytes, data, data_of};
use model::channel::Cycle;
use model::Deviation::*;
use model::{listing, Channel, Deviant, Deviation};

/// A kit gives this listing, and another one by each of the other readings.
fn row(text: &str, wanted: &str, others: &[Deviation]) {
    let kit = bytes(&text.replace("; ", "\n"));
    let wanted: String = wanted
        .lines()
        .map(|line| line.trim().to_owned() + "\n")
        .collect();
    assert_eq!(listing::list(&kit), wanted, "{text}");
    for &other in others {
        assert_ne!(
            listing::list_as(Deviant(other), &kit),
            wanted,
            "{} {text}",
            other.name()
        );
    }
}

/// The codes that a cycle gives, as they stand.
fn codes(cycle: &Cycle) -> Vec<u8> {
    cycle.causes.codes().collect()
}

#[test]
fn b_becomes_a_at_shutdown_speed_in_the_entry_cycle_too() {
    row(
        "lists A and B; 0 = 12; 1 = 1; 2 = 10; 32 = 5; 33 = 1000; log; both 0 SBH; both 11 SBH",
        "1 00000081 00000081 1
         2 05000085 05000085 a",
        &[ShutdownNotOnEntry],
    );
}

#[test]
fn k_rises_in_unusable_cycles_too() {
    row(
        "list A; 2 = 1; 34 = 1000; list B else as A; 2 = 2; log
         both 0 SBH; both 100_000_001 SBH; both 0 SBH",
        "1 00000080 00000080 1
         2 05000084 05000084 a
         3 15000084 15000084 a",
        &[KStaysUnusable],
    );
}

#[test]
fn the_first_cycle_compares_datum_0() {
    row(
        "list A; 0 = 12; 34 = 1000; list B else as A; 0 = 13; log; both 0 SBH; both 0 SBH ack",
        "1 10000080 10000080 1
         2 00000080 00000080 1",
        &[KRisesFirst],
    );
}

#[test]
fn the_place_of_number_1_is_the_faulty_word() {
    let text = "list A; 1 = 0; cut 1 word; word 0x40000000; list B";
    row(text, "refused 1 6 A", &[PlaceOfDatumWord]);
}

#[test]
fn a_surplus_piece_is_the_next_datums_wrong_first_word() {
    row(
        "list A; 3 = 0; piece 0; list B",
        "refused 4 10 A",
        &[SurplusPieceIsOwnFault],
    );
    row(
        "list A; 3 = binary32 0.5; piece 0; list B",
        "refused 3 10 A",
        &[SurplusPieceIsOwnFault],
    );
    row(
        "list A; 3 = open; piece 0 times 2; list B",
        "refused 2 10 A",
        &[PiecesBehindOpenAreOwnFault],
    );
    row("list A; 3 = 1; piece 0; list B", "refused 1 13 A", &[]);
    row("lists A and B; 50 = 1; piece 0", "refused 1 0 B", &[]);
    row(
        "list A; list B; log; piece 0",
        "refused 6 0 L",
        &[SurplusPieceIsOwnFault],
    );
}

#[test]
fn nothing_is_a_selection_too() {
    row(
        "lists A and B; 1 = 1; 27 = 3; log; both 0 off; both 0 SG1 times 4",
        "1 00000080 00000080 1
         2 00000080 00000080 1
         3 00000080 00000080 1
         4 00000080 00000080 1
         5 00000081 00000081 1",
        &[FirstIsNotNothing],
    );
}

#[test]
fn the_kits_size_is_looked_at_before_the_lists() {
    row("byte 0x00", "refused 6 0 L", &[KitSizeAfterLists]);
    row(
        "word 0x00000000 times 16385",
        "refused 6 0 L",
        &[KitSizeAfterLists],
    );
    row("word 0x00000000 times 16384", "refused 1 0 A", &[]);
}

#[test]
fn a_log_of_remarks_only_is_accepted() {
    row(
        "lists A and B; log; remark 0x1234567 times 3",
        "",
        &[RemarksOnlyRefused],
    );
    row("lists A and B", "", &[EmptyLogRefused]);
}

#[test]
fn unused_bits_of_log_words_are_refused() {
    let lists = "lists A and B; log; both 0 SBH; position 0;";
    row(
        &format!("{lists} word 0x50010000; upper 0; position 0; lower 0; upper 0; end"),
        "refused 6 8 L",
        &[LowerBitsIgnored],
    );
    row(
        &format!("{lists} lower 0; word 0x68000000; position 0; lower 0; upper 0; end"),
        "refused 6 9 L",
        &[UpperBitsIgnored],
    );
    row(
        &format!("{lists} lower 0; upper 0; position 0; lower 0; upper 0; word 0x70000002"),
        "refused 6 13 L",
        &[EndBitsIgnored],
    );
}

#[test]
fn cause_11_counts_cycles_usable_for_this_channel() {
    row(
        "lists A and B; 28 = 2; 34 = 1000; log
         A 0 SBH, B 0 SG1; A 0 SBH, B 0 bit 2; A 0 SBH, B 0 SG1",
        "1 00000080 00000080 1
         2 00000080 05000084 a
         3 10000080 05000084 a",
        &[InputsUsableForBoth],
    );
}

#[test]
fn the_others_unusable_report_is_compared_as_it_is() {
    row(
        "lists A and B; 28 = 1000; 34 = 1000; log; A 0 SBH, B 100_000_001 SBH",
        "1 10000080 05000084 a",
        &[OtherUnusableLeftOut],
    );
    row(
        "lists A and B; 34 = 1000; log; A 0 SBH, B 0 bit 2",
        "1 10000080 05000084 a",
        &[OtherUnusableLeftOut],
    );
}

#[test]
fn clearing_ends_rank_hold_and_f_only() {
    row(
        "lists A and B; 28 = 2; 34 = 1000; log
         A 0 SBH, B 0 SG1; A 0 SBH, B 0 SG1, ack; A 0 SBH, B 0 SG1",
        "1 00000080 00000080 1
         2 00000080 00000080 1
         3 10000080 10000080 1",
        &[ClearEndsRun],
    );
    row(
        "lists A and B; 1 = 1; 27 = 3; log; both 0 off; both 0 SG1; both 0 SG1 ack; both 0 SG1 times 2",
        "1 00000080 00000080 1
         2 00000080 00000080 1
         3 00000080 00000080 1
         4 00000080 00000080 1
         5 00000081 00000081 1",
        &[ClearEndsDelay],
    );
    row(
        "list A; 3 = 2; 34 = 1000; list B else as A; 3 = 3; log; both 0 SBH; both 0 SBH ack; both 0 SBH times 2",
        "1 00000080 00000080 1
         2 00000080 00000080 1
         3 00000080 00000080 1
         4 10000080 10000080 1",
        &[ClearSetsK],
    );
}

#[test]
fn number_5_is_looked_at_with_function_se_off_too() {
    row(
        "list A; 11 = 5; 12 = 5; list B",
        "refused 5 34 A",
        &[SeEndsOnlyWithFunction],
    );
    row(
        "list A; 13 = 5; 14 = 4; list B",
        "refused 5 40 A",
        &[SeEndsOnlyWithFunction],
    );
}

#[test]
fn part_of_the_way_back_up_lets_the_count_go_on() {
    row(
        "lists A and B; 1 = 1; 3 = 3000; 5 = 2000; 27 = 3; log
         both 0 SG1; both 0 SBH; both 0 SG3 times 3",
        "1 00000081 00000081 1
         2 00000081 00000081 1
         3 00000081 00000081 1
         4 00000081 00000081 1
         5 00100081 00100081 1",
        &[PartWayUpEndsCount],
    );
}

#[test]
fn times_of_0_take_effect_in_the_same_cycle() {
    row(
        "lists A and B; 1 = 1; log; both 0 off; both 0 SG1",
        "1 00000080 00000080 1
         2 00000081 00000081 1",
        &[DelayZeroNextCycle],
    );
    for (stop, word, device) in [
        ("C", "0b000080", "7"),
        ("D", "0a000080", "5"),
        ("E", "09000080", "3"),
    ] {
        row(
            &format!("lists A and B; 1 = 16; log; both 0 no-stop; both 0 stop-{stop}"),
            &format!("1 00000080 00000080 1\n2 {word} {word} {device}"),
            &[TimeZeroNextCycle],
        );
    }
    row(
        "lists A and B; 1 = 1; log; both 0 SBH; both 1 SBH",
        "1 00000081 00000081 1
         2 05000085 05000085 a",
        &[TimeZeroNextCycle],
    );
    row(
        "lists A and B; 1 = 2; 32 = 1000; log; A 0 SBH, B 1 SBH",
        "1 14000080 14000080 9",
        &[FTimeZeroNextCycle],
    );
}

#[test]
fn another_sg_of_equal_limit_is_effective_at_once() {
    row(
        "lists A and B; 1 = 1; 3 = 2000; 5 = 2000; 27 = 3; log; both 0 SG1; both 0 SG3",
        "1 00000081 00000081 1
         2 00100081 00100081 1",
        &[EqualIsLowering],
    );
}

#[test]
fn a_lowered_override_waits_for_its_delay() {
    row(
        "lists A and B; 0 = 12; 1 = 1; 4 = 2000; 8 = 3; 27 = 2; 29 = 1000; 35 = 100; 36 = 50; log
         both 0 SG2; both 300 SG2 override 1; both 600 SG2 override 1; both 900 SG2 override 1",
        "1 00080081 00080081 1
         2 00080081 00080081 1
         3 00080081 00080081 1
         4 03080081 03080081 7",
        &[OverrideAtOnce],
    );
}

#[test]
fn the_first_faulty_datum_answers() {
    row(
        "list A; 0 = 0; skip 1; word 0x20020000; list B",
        "refused 4 1 A",
        &[StructureFirst],
    );
    row(
        "list A, head 0x10000032; 0 = 0; list B",
        "refused 1 0 A",
        &[],
    );
    row(
        "list A; 0 = open; 1 = 32; list B",
        "refused 2 1 A",
        &[OpenGoesLast],
    );
}

#[test]
fn cams_are_kept_and_shown_in_an_unusable_cycle() {
    row(
        "lists A and B; 0 = 12; 1 = 12; 25 = 1; log; both 0 SBH; both 100_000_001 SBH; both 0 SBH",
        "1 0020ff80 0020ff80 1
         2 0500ff84 0500ff84 a
         3 0520ff84 0520ff84 a",
        &[UnusableCamsShow0, UnusableNxShown, NxNeedsPrevious],
    );
}

#[test]
fn cause_13_alone_does_not_hold_an_acknowledgement_up() {
    row(
        "lists A and B; 1 = 2; 32 = 1000; log; A 0 SBH, B 1 SBH; both 1 SBH ack",
        "1 14000080 14000080 9
         2 00000080 00000080 1",
        &[Cause13Fresh],
    );
    let mut channel = Channel::fresh(data(&[(1, 2), (32, 1000)]));
    let far = channel.report(1, 0);
    let first = channel.cycle(0, 0, false, far);
    assert_eq!(codes(&first), [13, 10]);
    let near = channel.report(0, 0);
    let second = channel.cycle(0, 0, true, near);
    assert_eq!(codes(&second), [13]);
    assert_eq!((first.word, second.word), (0x1400_0080, 0x0000_0080));
}

#[test]
fn form_0_beyond_the_whole_numbers_is_out_of_range() {
    row(
        "list A; 0 = 134_217_728; list B",
        "refused 4 1 A",
        &[WholeBeyondIs3],
    );
    row(
        "list A; 0 = -134_217_728; list B",
        "refused 4 1 A",
        &[WholeBeyondIs3],
    );
    row(
        "list A; 0 = 0x80000000; list B",
        "refused 4 1 A",
        &[WholeBeyondIs3],
    );
    row(
        "list A; 0 = binary64 134_217_728; list B",
        "refused 3 1 A",
        &[FloatLimitOneMore],
    );
    row(
        "list A; 0 = binary64 134_217_727; list B",
        "refused 4 1 A",
        &[FloatLimitOneLess],
    );
}

#[test]
fn the_delay_stays_over_an_unusable_cycle_and_goes_on() {
    row(
        "lists A and B; 1 = 1; 27 = 2; log; both 0 off; both 0 SG1; both 0 bit 2; both 0 SG1 times 2",
        "1 00000080 00000080 1
         2 00000080 00000080 1
         3 05000084 05000084 a
         4 05000084 05000084 a
         5 05000085 05000085 a",
        &[UnusableDelayFalls, UnusableDelayEnds],
    );
}

#[test]
fn reports_in_a_log_go_by_both_ks_from_before_the_cycle() {
    row(
        "lists A and B; log; both 0 SBH",
        "1 00000080 00000080 1",
        &[BSeesNewK],
    );
}

#[test]
fn a_ratio_is_that_of_the_present_cycle() {
    // Gear 1 is 2 to 1: 400 passes without it and 200 with it.
    row(
        "lists A and B of 67 data; 0 = 12; 1 = 1; 3 = 2000; 7 = 1; 31 = 9; 52 = 2; log
         both 0 SG1; both 200 SG1 gear 1; both 600 SG1; both 801 SG1 gear 1",
        "1 00000081 00000081 1
         2 00000081 00000081 1
         3 00000081 00000081 1
         4 01000081 01000081 3",
        &[
            RatioOfCycleBefore,
            RatioOfFirstCycle,
            RatioTakenAtRest,
            GearFixed,
        ],
    );
}

#[test]
fn a_ratio_does_not_wait_with_a_selection() {
    row(
        "lists A and B of 67 data; 0 = 12; 1 = 1; 3 = 2000; 7 = 1; 27 = 3; 31 = 9; 52 = 2; log
         both 0 SG1; both 201 SG2 gear 1",
        "1 00000081 00000081 1
         2 01000081 01000081 3",
        &[RatioWaits],
    );
}

#[test]
fn selections_are_ordered_without_the_ratio() {
    row(
        "lists A and B of 67 data; 1 = 1; 3 = 2000; 5 = 3000; 27 = 3; 52 = 10; log
         both 0 SG1; both 0 SG3 gear 1",
        "1 00000081 00000081 1
         2 00100081 00100081 1",
        &[OrderScaled],
    );
}

#[test]
fn gear_bits_go_by_the_head_alone() {
    row(
        "lists A and B; log; both 0 off gear 1",
        "1 05000084 05000084 a",
        &[GearBitsUsableAt51],
    );
    row(
        "lists A and B of 67 data; log; both 0 off gear 7",
        "1 00000080 00000080 1",
        &[GearBitsUnusableAt67, GearNeedsSbhSg, FourRatios],
    );
}

#[test]
fn heads_are_51_67_69_and_72() {
    row(
        "list A of 60 data; list B",
        "refused 1 0 A",
        &[HeadsBetweenTaken],
    );
    row(
        "list A of 72 data, head 0x10000049; list B",
        "refused 1 0 A",
        &[HeadsAboveTaken],
    );
    for count in [70, 71] {
        row(
            &format!("list A of {count} data; list B"),
            "refused 1 0 A",
            &[Heads70And71Taken],
        );
    }
    row(
        "list A of 69 data, head 0x10000048; list B",
        "refused 1 208 A",
        &[Head72Refused, ListMayEndAt69],
    );
    row(
        "list A of 72 data, head 0x10000045; list B",
        "refused 1 0 B",
        &[DataBehind69Taken],
    );
    row("list A of 68 data; list B", "refused 1 0 A", &[Head68Taken]);
    row(
        "list A of 67 data, head 0x10000045; list B",
        "refused 1 202 A",
        &[Head69Refused, ListMayEndAt67],
    );
    row(
        "list A of 69 data, head 0x10000043; list B",
        "refused 1 0 B",
        &[DataBehind67Taken],
    );
    row(
        "list A of 67 data, head 0x10000033; list B",
        "refused 1 0 B",
        &[DataBehindHeadTaken],
    );
    row(
        "list A, head 0x10000043; list B",
        "refused 1 154 A",
        &[ListMayEndAt51],
    );
}

#[test]
fn number_5_waits_for_the_ratios_too() {
    row(
        "list A of 67 data; 11 = 5; 12 = 5; 66 = 0; list B",
        "refused 4 199 A",
        &[SeEndsBeforeRatios],
    );
}

#[test]
fn unlike_heads_are_cause_12_in_every_cycle_of_both() {
    row(
        "list A; 34 = 1000; list B of 67 data, else as A; log; both 0 off; both 0 off ack",
        "1 10000080 10000080 1
         2 10000080 10000080 1",
        &[
            HeadNotCompared,
            HeadAtK0Only,
            HeadOfLongerOnly,
            HeadOfShorterOnly,
            HeadWithoutF,
            UnlikeHeadsRefused,
        ],
    );
}

#[test]
fn k_runs_over_as_many_data_as_the_list_has() {
    let cycles: String = (1..=67)
        .map(|cycle| {
            let word = if cycle == 67 { "10000080" } else { "00000080" };
            format!("{cycle} {word} {word} 1\n")
        })
        .collect();
    row(
        "list A of 67 data; 34 = 1000; list B, else as A; 66 = 2; log; both 0 off times 67",
        &cycles,
        &[KOnlyTo50, KOnlyTo65],
    );
}

#[test]
fn gear_bits_are_compared_as_they_are() {
    row(
        "lists A and B of 67 data; 34 = 1000; log; A 0 off gear 1, B 0 off gear 2",
        "1 10000080 10000080 1",
        &[GearNotCompared, GearComparedByRatio],
    );
}

#[test]
fn active_is_by_what_is_effective_after_this_cycle_s_step_3() {
    row(
        "lists A and B; 1 = 1; 26 = 5; 32 = 9; log; A 0 off, B 6 off; both 0 SG1",
        "1 10000080 10000080 1
         2 14000081 14000081 9",
        &[ActiveByCycleBefore, ActiveByFunction0, Cause13Once],
    );
    row(
        "lists A and B; 1 = 1; 3 = 2000; 26 = 5; 32 = 9; log; both 0 SG1; A 0 off, B 6 off",
        "1 00000081 00000081 1
         2 10000080 10000080 1",
        &[ActiveByCycleBefore, ActiveNotAsked],
    );
}

#[test]
fn a_selection_that_waits_is_not_active() {
    row(
        "lists A and B; 1 = 1; 26 = 5; 27 = 1; 32 = 9; log; A 0 off, B 6 off; both 0 SBH; both 0 SBH",
        "1 10000080 10000080 1
         2 10000080 10000080 1
         3 14000081 14000081 9",
        &[ActiveBySelected, ActiveByReport],
    );
}

#[test]
fn neither_nx_nor_external_stops_nor_a_stop_are_active() {
    row(
        "lists A and B; 1 = 24; 2 = 10; 26 = 5; 29 = 1; log; A 0 no-stop, B 6 no-stop; both 0 stop-C; both 0 no-stop",
        "1 10000080 10000080 1
         2 13000080 13000080 7
         3 1b000080 1b000080 7",
        &[ActiveByNx, ActiveByExternalStops, ActiveByStop],
    );
}

#[test]
fn se_and_cams_are_active_by_their_function_alone() {
    row(
        "lists A and B; 1 = 2; 26 = 5; 32 = 9; log; A 0 SE1, B 6 SE1",
        "1 14000080 14000080 9",
        &[ActiveWithoutSe, ActiveSe2Only, ActiveSeOutside],
    );
    row(
        "lists A and B; 1 = 4; 16..23 = 1000; 26 = 5; 32 = 9; log; A 0 off, B 6 off",
        "1 14000080 14000080 9",
        &[ActiveWithoutCams, ActiveCamsAbove],
    );
}

#[test]
fn f_is_set_shown_and_counted_while_nothing_is_active() {
    row(
        "lists A and B; 1 = 1; 26 = 5; 32 = 9; 34 = 2; log; A 0 off, B 6 off; both 0 off; both 0 SG1; both 0 SG1 ack",
        "1 10000080 10000080 1
         2 10000080 10000080 1
         3 14000081 14000081 9
         4 00000081 00000081 1",
        &[FNotSetInactive, FBitOnlyActive, FCountWaitsInactive, FCountAnewActive],
    );
    row(
        "lists A and B; 26 = 5; log; A 0 off, B 6 off; both 0 off; both 0 off ack",
        "1 10000080 10000080 1
         2 10000080 10000080 1
         3 00000080 00000080 1",
        &[
            FOffWhenOver,
            FBitOverOnlyActive,
            FBitUntilOver,
            ClearKeepsFInactive,
        ],
    );
}

#[test]
fn a_stop_by_cause_13_outlives_what_was_active() {
    row(
        "lists A and B; 1 = 1; 3 = 2000; 26 = 5; 32 = 2; log; A 0 SG1, B 6 SG1; both 0 off; both 0 off",
        "1 14000081 14000081 9
         2 14000080 14000080 9
         3 15000084 15000084 a",
        &[RankFallsInactive, BWaitsInactive],
    );
}

#[test]
fn each_channel_goes_by_what_is_active_in_it() {
    row(
        "list A; 1 = 2; 26 = 5; 32 = 9; list B, else as A; 1 = 8; log; A 0 off, B 6 off",
        "1 14000080 10000080 9",
        &[ActiveInEither],
    );
}

#[test]
fn code_13_is_absent_while_nothing_is_active() {
    let mut channel = Channel::fresh(data(&[(1, 9), (32, 1000)]));
    let far = channel.report(1, 1);
    let off = channel.cycle(0, 1, false, far);
    assert_eq!((off.word, codes(&off)), (0x1000_0080, vec![10]));
    let near = channel.report(0, 1);
    let off = channel.cycle(0, 1, false, near);
    assert_eq!((off.word, codes(&off)), (0x1000_0080, vec![]));
    let near = channel.report(0, 2);
    let sg1 = channel.cycle(0, 2, false, near);
    assert_eq!((sg1.word, codes(&sg1)), (0x1400_0081, vec![13]));
    let near = channel.report(0, 1);
    let off = channel.cycle(0, 1, false, near);
    assert_eq!((off.word, codes(&off)), (0x1400_0080, vec![]));
}

/// Lists with nx 600, hysteresis 300 and filter 2; T is 12, so nx is a step of 120, and 180 with the hysteresis.
const NX: &str = "lists A and B of 69 data; 0 = 12; 1 = 8; 25 = 600; 67 = 300; 68 = 2; log";

#[test]
fn the_present_cycle_counts_in_the_run_of_nx() {
    row(
        &format!("{NX}; both 0 off; both 119 off; both 119 off"),
        "1 00000080 00000080 1
         2 00000080 00000080 1
         3 00200080 00200080 1",
        &[
            NxThisCycleNotCounted,
            NxFilterAtLeast,
            NxFilterOneMore,
            NxWaitsForPrevious,
            NxRunFresh1,
        ],
    );
}

#[test]
fn nx_plus_hysteresis_itself_is_not_below_it() {
    row(
        "lists A and B of 69 data; 0 = 12; 1 = 8; 25 = 600; 67 = 300; log; both 0 off; both 179 off; both 359 off",
        "1 00200080 00200080 1
         2 00200080 00200080 1
         3 00000080 00000080 1",
        &[
            NxTo0Above,
            NxHysteresisIgnored,
            NxHysteresisBelow,
            NxHysteresisHalved,
        ],
    );
}

#[test]
fn going_to_0_waits_for_no_filter() {
    row(
        &format!("{NX}; both 0 off times 3; both 180 off"),
        "1 00000080 00000080 1
         2 00000080 00000080 1
         3 00200080 00200080 1
         4 00000080 00000080 1",
        &[NxFilteredTo0, NxNeverTo0],
    );
}

#[test]
fn between_the_run_of_nx_ends_and_the_value_stays() {
    row(
        &format!("{NX}; both 0 off times 2; both 150 off; both 150 off times 3; both 300 off; both 300 off"),
        "1 00000080 00000080 1
         2 00000080 00000080 1
         3 00000080 00000080 1
         4 00000080 00000080 1
         5 00000080 00000080 1
         6 00200080 00200080 1
         7 00200080 00200080 1
         8 00200080 00200080 1",
        &[
            NxBetweenIs1,
            NxShortRunIs0,
            NxRunNotEnded,
            NxRunFalls,
            NxRunEndedAboveOnly,
            NxTo1BelowSum,
        ],
    );
}

#[test]
fn an_unusable_cycle_leaves_value_and_run_of_nx() {
    row(
        &format!("{NX}; both 0 off times 2; both 0 off bit 2; both 0 off; both 150 off; both 0 off bit 2; both 0 off"),
        "1 00000080 00000080 1
         2 00000080 00000080 1
         3 05000084 05000084 a
         4 05200084 05200084 a
         5 05200084 05200084 a
         6 05000084 05000084 a
         7 05200084 05200084 a",
        &[
            UnusableNxRunEnds,
            UnusableNxRunFalls,
            UnusableNxTo0,
            UnusableNxAsFresh,
            UnusableNxValueShown,
        ],
    );
    row(
        &format!("{NX}; both 0 off; both 0 off bit 2; both 0 off; both 0 off"),
        "1 00000080 00000080 1
         2 05000084 05000084 a
         3 05000084 05000084 a
         4 05200084 05200084 a",
        &[UnusableNxRunCounts, UnusableNxWorkedOut, UnusableNxTo1],
    );
}

#[test]
fn no_stop_and_no_acknowledgement_changes_nx() {
    row(
        "lists A and B of 69 data; 0 = 12; 1 = 24; 25 = 600; 67 = 300; 68 = 1; log
         both 0 off stop-A; both 0 off no-stop ack; both 150 off stop-A; both 300 off no-stop ack",
        "1 05000084 05000084 a
         2 00200080 00200080 1
         3 05200084 05200084 a
         4 00200080 00200080 1",
        &[NxWaitsInStop, StopAPutsNxTo0, StopEndsNxRun, ClearPutsNxTo0],
    );
}

#[test]
fn both_comparisons_of_nx_take_the_present_ratio() {
    row(
        "lists A and B of 69 data; 0 = 12; 1 = 8; 25 = 600; 52 = 2; 67 = 300; log
         both 0 off gear 1; both 60 off gear 1; both 149 off gear 1; both 239 off gear 1; both 298 off gear 1",
        "1 00200080 00200080 1
         2 00200080 00200080 1
         3 00200080 00200080 1
         4 00000080 00000080 1
         5 00200080 00200080 1",
        &[NxTo0Unscaled, NxTo0ByFirstRatio, GearBitsUnusableAt69, RatioIs1At69],
    );
}

#[test]
fn with_both_data_0_and_in_shorter_lists_n_below_nx_reads_as_before() {
    for (of, others) in [
        ("", &[LackedHysteresisIs1, LackedFilterIs1][..]),
        (" of 67 data", &[LackedHysteresisIs1, LackedFilterIs1]),
        (" of 69 data", &[]),
    ] {
        row(
            &format!("lists A and B{of}; 0 = 12; 1 = 8; 25 = 600; log; both 0 off; both 119 off; both 239 off; both 239 off"),
            "1 00200080 00200080 1
             2 00200080 00200080 1
             3 00000080 00000080 1
             4 00200080 00200080 1",
            others,
        );
    }
}

#[test]
fn what_is_kept_of_nx_with_its_function_off() {
    let stated = [(0, 12), (25, 600), (67, 300), (68, 2)];
    let mut channel = Channel::fresh(data_of(69, &stated));
    for (position, inputs, value, run) in [
        (0, 1, false, 1),
        (119, 1, false, 2),
        (119, 5, false, 2),
        (119, 1, true, 3),
        (269, 1, true, 0),
        (269, 5, true, 0),
        (269, 1, true, 1),
        (449, 1, false, 0),
    ] {
        let report = channel.report(position, inputs);
        let word = channel.cycle(position, inputs, false, report).word;
        assert_eq!(word & 1 << 21, 0);
        let nx = channel.nx();
        assert_eq!((nx.value, nx.run), (value, run), "{position} {inputs}");
    }
}

#[test]
fn the_run_of_nx_is_counted_up_to_1001_whatever_the_filter() {
    for filter in [0, 2, 1000] {
        let mut channel = Channel::fresh(data_of(69, &[(0, 12), (25, 600), (68, filter)]));
        for cycle in 1..=1_010 {
            let report = channel.report(0, 1);
            channel.cycle(0, 1, false, report);
            assert_eq!(channel.nx().run, cycle.min(1_001));
            assert_eq!(channel.nx().value, cycle > i64::from(filter));
        }
    }
}

/// Lists with tolerance 10, delay 2 and stop E of safe direction, which is the one function that is on.
const DIRECTION: &str =
    "lists A and B of 72 data; 0 = 12; 1 = 32; 2 = 100000; 69 = 10; 70 = 2; 71 = 1; log";

#[test]
fn functions_go_by_the_head() {
    for (of, most, narrower) in [
        ("", 31, FunctionsHighNarrower),
        (" of 67 data", 31, FunctionsHighNarrower),
        (" of 69 data", 31, FunctionsHighNarrower),
        (" of 72 data", 63, FunctionsOf72HighNarrower),
    ] {
        row(&format!("lists A and B{of}; 1 = {most}"), "", &[narrower]);
        row(
            &format!("list A{of}; 1 = {}; list B", most + 1),
            "refused 4 4 A",
            &[],
        );
    }
    row(
        "list A of 69 data; 1 = 63; list B",
        "refused 4 4 A",
        &[FunctionsTo63At69, FunctionsTo63AtAnyHead],
    );
    row("lists A and B of 72 data; 1 = 32", "", &[FunctionsTo31At72]);
}

#[test]
fn the_present_cycle_counts_in_the_run_of_a_direction() {
    row(
        &format!("{DIRECTION}; both 0 off positive-only times 2; both -50 off positive-only; both -61 off positive-only"),
        "1 00000080 00000080 1
         2 00000080 00000080 1
         3 00000080 00000080 1
         4 09000080 09000080 3",
        &[
            DirectionDelayAtLeast,
            DirectionDelayOneMore,
            DirectionDelayIgnored,
            DirectionRunFresh1,
            DirectionWaitsForPrevious,
            DirectionExtremeFromBit0,
            DirectionExtremeFromCycleBefore,
        ],
    );
}

#[test]
fn an_unusable_cycle_leaves_runs_watches_and_extremes() {
    row(
        &format!("{DIRECTION}; both 0 off; both 0 off bit 2; both 0 off ack; both -50 off; both 500 off both-ways bit 2; both -60 off ack; both -61 off"),
        "1 00000080 00000080 1
         2 05000084 05000084 a
         3 00000080 00000080 1
         4 00000080 00000080 1
         5 05000084 05000084 a
         6 00000080 00000080 1
         7 09000080 09000080 3",
        &[
            UnusableEndsDirectionRun,
            UnusableTakesFromDirectionRun,
            UnusableEndsWatch,
            UnusableEndsWatchByBit,
            UnusableDirectionAsFresh,
            UnusableLosesExtreme,
            UnusableTakenIntoExtreme,
        ],
    );
    row(
        &format!("{DIRECTION}; both 0 off; both 0 off bit 2; both -50 off ack; both -100 off ack; both -100 off"),
        "1 00000080 00000080 1
         2 05000084 05000084 a
         3 00000080 00000080 1
         4 00000080 00000080 1
         5 00000080 00000080 1",
        &[UnusableCountsInDirectionRun],
    );
}

#[test]
fn an_acknowledgement_leaves_runs_watches_and_extremes() {
    row(
        &format!("{DIRECTION}; both 0 off positive-only ack times 3; both -10 off positive-only ack; both -11 off positive-only ack"),
        "1 00000080 00000080 1
         2 00000080 00000080 1
         3 00000080 00000080 1
         4 00000080 00000080 1
         5 09000080 09000080 3",
        &[
            AcknowledgementEndsWatch,
            AcknowledgementSetsExtreme,
            ClearEndsDirectionRun,
            ClearEndsWatch,
            ClearSetsExtreme,
            Cause14NotFresh,
            AcknowledgementWins,
        ],
    );
}

#[test]
fn each_direction_has_its_own_run_watch_and_extreme() {
    row(
        &format!("{DIRECTION}; both 0 off positive-only times 3; both 50 off; both 60 off; both 55 off; both 65 off; both 54 off"),
        "1 00000080 00000080 1
         2 00000080 00000080 1
         3 00000080 00000080 1
         4 00000080 00000080 1
         5 00000080 00000080 1
         6 00000080 00000080 1
         7 00000080 00000080 1
         8 09000080 09000080 3",
        &[
            DirectionRunShared,
            DirectionWatchShared,
            DirectionExtremeShared,
            DirectionEitherForbidsBoth,
        ],
    );
}

#[test]
fn bits_13_and_14_go_by_function_5() {
    row(
        "lists A and B of 72 data; 1 = 0; log; both 0 off; both 0 off bit 13",
        "1 00000080 00000080 1
         2 05000084 05000084 a",
        &[DirectionBitsFreeAt72, DirectionBitsFree],
    );
    row(
        "lists A and B of 72 data; 1 = 32; log; both 0 off both-ways",
        "1 00000080 00000080 1",
        &[
            DirectionBitsUnusable,
            DirectionBit13Unusable,
            DirectionBit14Unusable,
        ],
    );
}

#[test]
fn none_begins_with_function_5_off() {
    for (functions, run, watch) in [(0, 0, None), (31, 0, None), (32, 2, Some(3))] {
        let mut channel = Channel::fresh(data_of(72, &[(1, functions), (70, 1)]));
        for position in [5, 3] {
            let report = channel.report(position, 1);
            channel.cycle(position, 1, false, report);
        }
        let directions = channel.directions();
        for watched in [directions.positive, directions.negative] {
            assert_eq!((watched.run, watched.watch), (run, watch));
        }
    }
}

#[test]
fn the_run_of_a_direction_is_counted_up_to_1001_whatever_the_delay() {
    for delay in [0, 2, 1000] {
        let mut channel = Channel::fresh(data_of(72, &[(1, 32), (70, delay)]));
        for cycle in 1..=1_010 {
            let report = channel.report(0, 1);
            channel.cycle(0, 1, false, report);
            let positive = channel.directions().positive;
            assert_eq!(positive.run, cycle.min(1_001));
            assert_eq!(positive.watch.is_some(), cycle > i64::from(delay));
        }
    }
}

#[test]
fn code_14_stands_once_and_by_the_rank_of_datum_71() {
    for (stop, wanted) in [
        (1, [5, 3, 13, 6, 7, 4, 8, 14, 10]),
        (2, [5, 3, 13, 6, 7, 14, 4, 8, 10]),
        (3, [5, 3, 13, 6, 14, 7, 4, 8, 10]),
        (4, [5, 3, 13, 14, 6, 7, 4, 8, 10]),
        (5, [5, 14, 3, 13, 6, 7, 4, 8, 10]),
    ] {
        let stated = [
            (1, 63),
            (7, 4),
            (11, 100),
            (12, 101),
            (15, 1),
            (26, 1),
            (71, stop),
        ];
        let mut channel = Channel::fresh(data_of(72, &stated));
        for position in [0, 20, 10] {
            let mut report = channel.report(position, 2);
            report.position = 1000;
            let cycle = channel.cycle(position, 2, false, report);
            if position == 10 {
                assert_eq!(codes(&cycle), wanted, "{stop}");
            }
        }
    }
}
