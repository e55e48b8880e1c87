//! What can be got wrong.

use std::cell::Cell;

/// One enum of all mistakes, and a list of each group of them.
macro_rules! mistakes {
    ($($group:ident: $($mistake:ident),+;)+) => {
        #[derive(Clone, Copy, Debug, PartialEq)]
        pub enum Mistake {
            None,
            $($($mistake,)+)+
        }

        impl Mistake {
            $(pub const $group: &[Mistake] = &[$(Mistake::$mistake),+];)+
        }
    };
}

mistakes! {
    IN_THE_BOOK:
        TagsAreNotLookedInto,
        TagsOfCriticalRecordsAloneAreLookedInto,
        TagsOfOtherRecordsAloneAreLookedInto,
        TagsOfTheRootAreNotLookedInto,
        TagsOfRelevantNamesAloneAreLookedInto,
        TagsHoldHyphens,
        TagsHoldUnderscores,
        TagsHoldBlanks,
        TagsHoldOctetZero,
        TagsHoldOctetsFrom128On,
        FirstOctetOfATagIsNotLookedAt,
        LastOctetOfATagIsNotLookedAt,
        TagsOfClass3AreLookedInto,
        TagsAreLookedIntoBehindTheLayout,
        TargetsAreNotLookedInto,
        TargetsAreLookedIntoBehindTheLayout,
        TargetsOfRelevantNamesAloneAreLookedInto,
        TargetsOfTheRootAreNotLookedInto,
        TargetsOfClass3AreLookedInto,
        OctetsBehindATargetAreLetPass,
        EmptyTargetsAreLetPass,
        CompressedTargetsAreLetPass,
        TargetsOf256OctetsAreLetPass,
        TargetsOf255OctetsAreRefused,
        TargetsHaveToBeHostNames,
        RootAsTargetIsRefused;
    IN_THE_CONFLICTS:
        ConflictsAreLetPass,
        TwoAliasesAreLetPass,
        EqualAliasesAreLetPass,
        AliasBehindCaaIsLetPass,
        CaaBehindAliasIsLetPass,
        ConflictsOfTheRootAreLetPass,
        ConflictsOfRelevantNamesAloneCount,
        ConflictsAreFoundByLetterCase,
        NeighboursAloneConflict,
        CaaTwiceIsAConflict,
        AliasBesideOtherTypesIsAConflict,
        AliasOfClass3IsAConflict,
        EarlierRecordIsTold,
        LastConflictIsTold,
        ConflictOfTheEarliestRecordIsTold,
        ConflictsAreToldInReadingOrder;
    IN_THE_ALIASES:
        AliasesAreNotFollowed,
        AliasesOfXAloneAreFollowed,
        AliasesAboveXAloneAreFollowed,
        AliasesOf3NamesAreFollowed,
        AliasesOf40NamesAreFollowed,
        AliasesOf100NamesAreFollowed,
        AliasOfTheStarIsFollowed,
        AliasesOfAnyClassCount,
        DnamesCount,
        OneAliasIsFollowed,
        SevenAliasesAreFollowed,
        NineAliasesAreFollowed,
        AliasesAreCountedFromLookToLook,
        LoopsLeadNowhere,
        TooManyAliasesLeadNowhere,
        TooManyAliasesAreOpen,
        TargetsAreFollowedByLetterCase,
        TargetsAreFollowedUpTo128Octets,
        SetsOfTargetsAreFoundByLetterCase,
        RootAsTargetIsPassedOver,
        AliasOfTheRootIsNotFollowed,
        AliasOfTheRootIsLookedAt,
        TargetIsClimbed,
        ClimbGoesOnFromTheTarget,
        TargetWithoutSetEndsTheClimb;
    IN_THE_LOOK:
        OwnersAreComparedByTail,
        OwnersAreComparedUpTo128Octets,
        OwnersAreComparedByLetterCase,
        OwnersFoldMoreThanLetters,
        OtherClassesCount,
        RootIsLookedAt,
        StarIsLookedAt,
        ParentsAreNotLookedAt,
        AllParentsCount,
        ClimbEndsAfter3Names,
        ClimbEndsAfter40Names,
        ClimbEndsAfter100Names,
        ClimbEndsAfter126Names,
        SetsWithoutGrantsArePassed;
    IN_THE_SET:
        CriticalIsTheBitWorthOne,
        AnyFlagIsCritical,
        KnownTagsCanForbid,
        UnknownTagsAlwaysForbid,
        UnknownCriticalIsIgnored,
        TagsAreComparedByLetterCase,
        TagsAreComparedByFront,
        IssueCountsBesideIssuewild,
        IssuewildGovernsAll,
        StarsNeedIssuewild,
        BadValuesAreAbsent,
        BadValuesOfIssueAreAbsent,
        BadValuesOfIssuewildAreAbsent,
        ValuesWithoutNameAreAbsent,
        BadValuesGrantTheirFront,
        NamesWithLongLabelsAreAbsent,
        LongNamesAreAbsent,
        NamesWithLongLabelsGrantTheirFront,
        LongNamesGrantTheirFront,
        ParameterTagsHoldNoHyphens,
        ParameterTagsHoldNoTwoHyphensInARow,
        ParameterTagsBeginWithHyphens,
        ParameterTagsEndWithHyphens,
        ParameterTagsMayBeAHyphen,
        ParameterTagsHoldBlanksBesideHyphens,
        FirstParameterTagAloneHoldsHyphens;
    IN_THE_LIMITS:
        LimitsAreIgnored,
        AccountsAreIgnored,
        MethodsAreIgnored,
        LimitsOfIssuewildAreIgnored,
        UnmetLimitsAreAbsent,
        UnmetLimitsOfIssuewildAreAbsent,
        OneLimitMetIsEnough,
        OtherParametersForbid,
        LimitTagsAreComparedByLetterCase,
        LimitTagsAreComparedByFront,
        AccountsFoldLetters,
        AccountsAreComparedByFront,
        AccountsAreComparedUpTo128Octets,
        AccountsArePartedByCommas,
        TwoAccountsOfWhichOneIsMet,
        TwoAccountsThatAreBothMet,
        FirstOfTwoAccountsCounts,
        LastOfTwoAccountsCounts,
        TwoAccountsInOneLetterCaseForbid,
        MethodsFoldLetters,
        MethodsAreComparedByFront,
        MethodsAreComparedUpTo128Octets,
        MethodsAreNotPartedByCommas,
        FirstMethodAloneCounts,
        LastMethodAloneCounts,
        AllMethodsAreToBeMet,
        MethodsUpTo255OctetsCount,
        TwoMethodsOfWhichOneIsMet,
        TwoMethodsThatAreBothMet,
        FirstOfTwoMethodsCounts,
        LastOfTwoMethodsCounts,
        EmptyItemsArePassedOver,
        EmptyItemAtTheFrontIsPassedOver,
        EmptyItemAtTheEndIsPassedOver,
        EmptyItemWithinIsPassedOver,
        ItemsBehindTheMethodAreNotLookedAt,
        EmptyMethodsAreNoLimit;
    IN_THE_VERDICT:
        IssuersAreComparedByTail,
        IssuersAreComparedUpTo128Octets,
        IssuersAreComparedByLetterCase,
        CaaRecordsAloneAreNumbered,
        FirstOfTheSetIsTold,
        LastGoverningIsTold,
        LastUnknownCriticalIsTold,
        LastNameIsTold,
        UnknownCriticalIsToldFirst,
        TooManyAliasesAreToldFirst,
        LastAliasIsTold,
        LastFollowedAliasIsTold,
        LowestAliasIsTold,
        AliasOfXIsTold;
    IN_THE_COUNT:
        OneLabelTooManyIsCounted,
        OneLabelTooManyIsCountedAboveX,
        OneLabelTooFewIsCounted,
        StarIsCounted,
        StarAtXIsCounted,
        LabelsLeftAreTold,
        OctetsTakenOffAreTold,
        LabelsOfTheTargetAreTold,
        LabelsUpToTheTargetAreTold,
        AliasesAreCounted,
        LooksAlongAliasesAreNotCounted,
        LabelsOfTheFirstNameAreTold,
        LabelsOfTheNameBeforeAreTold,
        LabelsAreCountedFromNameToName;
    IN_THE_LIST:
        NamesWithLongLabelsAreListed,
        LongNamesAreListed,
        LargeLettersAreKept,
        RepeatsAreKept,
        RepeatsAreFoundByLetterCase,
        RepeatsAreFoundUpTo128Octets,
        OrderIsOfTheLastGrant,
        OrderIsOfTheLastName,
        OrderIsOfTheAlphabet,
        OneGrantIsEnough,
        FirstNameDecides,
        OneOpenNameIsAnyone,
        EmptyIsAnyone,
        UnknownCriticalBehindIsIgnored,
        TooManyAliasesBehindAreIgnored;
}

thread_local! {
    static MADE: Cell<Mistake> = const { Cell::new(Mistake::None) };
}

impl Mistake {
    /// The compared calls are plain functions, so they are told here which mistake to make.
    pub fn is_made_from_now_on(self) {
        MADE.set(self);
    }

    pub fn is_made(self) -> bool {
        MADE.get() == self
    }
}
