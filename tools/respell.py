#!/usr/bin/env python3
"""respell.py: gives the definitions and lemmas of this repository the spelling of today's Rattle.

usage: python3 tools/respell.py   at the top of the repository, once, right after the port's own script

Words are in snake case, facts and types in camel case; a dash stays where it joins two names. Where a lemma and a definition
would get one name, the lemma ends in _lem. The crate hex becomes hexadecimal, since Rattle has a library of the old name.
Texts in quotes are left alone; in the pages of docs/ and README.md only what stands between backticks is turned.
"""
import re
import subprocess
from pathlib import Path

NAMES = """
isNumber=is_number top-of=top_of
Above-last-stays=AboveLastStays Complete-is-there=CompleteIsThere Complete-stays=CompleteStays Damage-shows=DamageShows
Every-call-goes-on=EveryCallGoesOn Every-run-is-lawful=EveryRunIsLawful Handed-over-is-submitted=HandedOverIsSubmitted Handed-over-once=HandedOverOnce
Left-out-was-held=LeftOutWasHeld Records-stay=RecordsStay Submitted-once=SubmittedOnce above-last-stays=above_last_stays ack-back=ack_back
ack-read=ack_read ack-same=ack_same ack-sourced=ack_sourced ack-told=ack_told ack-truly=ack_truly ack-wire=ack_wire ack-wired=ack_wired
ackBroken=ack_broken ackCleared=ack_cleared ackCount=ack_count ackFor=ack_for ackHead=ack_head ackIn=ack_in ackOctets=ack_octets ackOf=ack_of
ackSaid=ack_said ackSent=ack_sent ackTime=ack_time ackType=ack_type ackUnfit=ack_unfit acked-before=acked_before acked-by=acked_by
acked-grows=acked_grows acked-held=acked_held acked-now=acked_now acked-stays=acked_stays address-at-record=address-at_record
address-at-row=address-at_row address-back=address_back address-keeps=address_keeps address-opens=address_opens
address-record-named=address_record_named address-row-named=address_row_named address-truly=address_truly address-wire=address_wire
addressAgainst=address_against addressArrival=address_arrival addressAt=address_at addressAtNone=address_at_none addressAtRecord=address_at_record
addressAtRow=address_at_row addressBroken=address_broken addressCount=address_count addressDestinations=address_destinations addressFor=address_for
addressHead=address_head addressIn=address_in addressOctets=address_octets addressSent=address_sent addressType=address_type
addressUnfit=address_unfit afterAgain=left_after_again afterRing=left_after_ring again-ok=again_ok ahead-along=ahead_along ahead-of=ahead_of_others
aheadIf=ahead_if all-consIf=all_cons_if all-present=all_present all-single=all_single all-sourced=all_sourced allHeard=all_heard allTo=all_to
answered-by=answered_by answers-are=answers_are answersOf=answers_of any-low=any_low apart-set=apart_set append-elsewhere=append_elsewhere
append-found=append_found append-here=append_here append-sourced=append_sourced append-with=append_with_lem append-with-sourced=append_with_sourced
appendAt=append_at appendNext=append_next appendWith=append_with append_at=append_at_lem appended-push=appended_push appendedBy=appended_by
arrival-ok=arrival_ok asked-at=asked_at asked-held=asked_held asked-identity=asked_identity asked-source=asked_source asked-there=asked_there
asked-to=asked_to at-collects=at_collects at-keeps=at_keeps at-model=at_model at-polls=at_polls at-receiver=at_receiver at-receiver-of=at_receiver_of
badClock=bad_clock badCount=bad_count badIdentity=bad_identity badList=bad_list badPlace=bad_place before-low=before_low before-none=before_none
begin-keeps=begin_keeps begin-sourced=begin_sourced beginAt=begin_at bit-and=bit_and_lem bit-by-bit=bit_by_bit bit-or=bit_or_lem bit-other=bit_other
bit-self=bit_self bit-turned=bit_turned block-other=block_other broken-at=broken_at broken-front=broken_front broken-rest=broken_rest
broken-stop=broken_stop brokenIn=broken_in by-case=by_case by-receiver=by_receiver by-sender=by_sender by-test=by_test byEnd=by_end byStore=by_store
byWire=by_wire cases-place=cases_place causeOf=cause_of causes-err=causes_err causes-ok=causes_ok cell-within=cell_within changed-keeps=changed_keeps
changed-step=changed_step changedAt=changed_at channel-grows=channel_grows checksum-is=checksum_is checksumField=checksum_field checksumOf=checksum_of
cleared-all=cleared_all cleared-grows=cleared_grows cleared-keeps=cleared_keeps cleared-none=cleared_none cleared-tells=cleared_tells
cleared-there=cleared_there clears-cases=clears_cases closed-clears=closed_clears closed-test=closed_test closing-pair=closing_pair
collect-keeps=collect_keeps collect-told=collect_told collectAt=collect_at collectInto=collect_into collectRow=collect_row collectWith=collect_with
collected-keeps=collected_keeps complete-is-there=complete_is_there complete-on=complete_on complete-pending=complete_pending
complete-row=complete_row complete-stays=complete_stays complete-strings=complete_strings completeOr=complete_or 
cond-times=cond_times consIf=cons_if copied-out=copied_out count-is=count_is counted-undrafted=counted_undrafted
countedIn=counted_in countedRow=counted_row coveredAfter=covered_after damage-shows=damage_shows damaged-truly=damaged_truly data-1=data_1
data-2=data_2 data-3=data_3 data-at=data_at_lem data-at-new=data_at_new_lem data-at-row=data_at_row_lem data-back=data_back data-fit=data_fit
data-fits=data_fits data-inside=data_inside data-keeps=data_keeps data-named=data_named data-new-named=data_new_named data-piece=data_piece
data-row-named=data_row_named data-sent=data_sent_lem data-truly=data_truly data-wire=data_wire dataAgainst=data_against dataAt=data_at
dataAtNew=data_at_new dataAtRow=data_at_row dataBroken=data_broken dataFor=data_for dataIn=data_in dataOctets=data_octets dataSent=data_sent
dataType=data_type dataUnfit=data_unfit delayAt=delay_at delayCount=delay_count delayIndex=delay_index delayOf=delay_of delayStep=delay_step
delays-apart=delays_apart delays-once=delays_once destination-grows=destination_grows destination-lapsed=destination_lapsed
destinationIn=destination_in destinationOctets=destination_octets destinationOr=destination_or destinationSize=destination_size
destinations-are=destinations_are destinations-back=destinations_back destinations-count=destinations_count destinations-few=destinations_few
destinations-fit=destinations_fit destinations-front=destinations_front destinations-rest=destinations_rest destinations-rise=destinations_rise
destinationsIn=destinations_in destinationsOf=destinations_of differ-more=differ_more digit-cond=digit_cond digit-times=digit_times digitOf=digit_of
discard-at=discard_at_lem discard-back=discard_back discard-keeps=discard_keeps discard-named=discard_named discard-ok=discard_ok
discard-sent=discard_sent_lem discard-truly=discard_truly discard-wire=discard_wire discardAt=discard_at discardBroken=discard_broken
discardIn=discard_in discardOctets=discard_octets discardOf=discard_of discardSent=discard_sent discardType=discard_type draft-found=draft_found
draft-is=draft_is draft-ok=draft_ok draft-ticked=draft_ticked draft-with=draft_with draftCount=draft_count draftRow=draft_row due-at=due_at
due-message=due_message each-one=each_one emptied-more=emptied_more empty-by=empty_by empty-sound=empty_sound emptyStore=empty_store
endingIfComplete=ending_if_complete endingWait=ending_wait ends-or=ends_or enrol-keeps=enrol_keeps enrol-sourced=enrol_sourced enrolAt=enrol_at
entries-back=entries_back entries-count=entries_count entries-front=entries_front entries-more=entries_more entries-stand=entries_stand
entries-stop=entries_stop entriesBroken=entries_broken entriesIf=entries_if entriesIn=entries_in entriesOf=entries_of entry-heard=entry_heard
entry-last=entry_last entry-low=entry_low entry-numbers=entry_numbers_lem entry-odd=entry_odd entry-short=entry_short entry-stands=entry_stands
entryBroken=entry_broken entryBrokenIn=entry_broken_in entryHead=entry_head entryIn=entry_in entryNumbers=entry_numbers event-cases=event_cases
event-grows=event_grows event-last=event_last event-same=event_same every-at=every_at every-consIf=every_cons_if every-push=every_push
every-run-is-lawful=every_run_is_lawful every-those=every_those exampleChecksums=example_checksums exampleWaits=example_waits
excluding-other=excluding_other excluding-same=excluding_same expiring-after=expiring_after expiry-fits=expiry_fits expiry-is=expiry_is
extraAddressType=extra_address_type fact-grows=fact_grows fewer-if=fewer_if first-here=first_here first-is=first_is firstFrom=first_from
firstPlace=first_place firstWait=first_wait fits-are=fits_are fits-from=fits_from flip-octet=flip_octet flip-other=flip_other
for-identity=for_identity foreign-quiet=foreign_quiet foremost-alike=foremost_alike foremost-is=foremost_is foremost-one=foremost_one
foremost-stands=foremost_stands foremost-waits=foremost_waits foremostFrom=foremost_from foremostOf=foremost_of forget-keeps=forget_keeps
forget-row=forget_row_lem forget-row-sourced=forget_row_sourced forget-sourced=forget_sourced forgetAt=forget_at forgetRow=forget_row
found-more=found_more found-place=found_place fourOctets=four_octets fragment-good=fragment_good fragment-is=fragment_is fragmentAt=fragment_at
fragments-are=fragments_are fragmentsAt=fragments_at framed-after=framed_after framed-from=framed_from framed-head=framed_head
framed-written=framed_written free-accepted=free_accepted free-accepts=free_accepts free-found=free_found free-sound=free_sound free-ways=free_ways
freeAnswer=free_answer freed-all=freed_all freed-more=freed_more freedBelow=freed_below freedRows=freed_rows freedWhere=freed_where
from-along=from_along from-receivers=from_receivers from-senders=from_senders from-shift=from_shift from-waits=from_waits front-after=front_after
front-clears=front_clears front-holds=front_holds front-test=front_test full-has=full_has get-accepted=get_accepted get-accepts=get_accepts
get-ways=get_ways getAnswer=get_answer getD-freed=get_d_freed getD-listed=get_d_listed getD-vacant=get_d_vacant getD-vacants=get_d_vacants
gone-stays=gone_stays good-list=good_list good-octet=good_octet good-sum=good_sum greatest-is=greatest_is greatest-of=greatest_of
greatest-same=greatest_same greatest-skip=greatest_skip greatest-top=greatest_top greatest-upTo=greatest_up_to grid-ghosts=grid_ghosts
grid-length=grid_length grid-less=grid_less grid-made=grid_made grid-made-keeps=grid_made_keeps grid-octets=grid_octets grid-put-after=grid_put_after
grid-put-keeps=grid_put_keeps grid-put-room=grid_put_room grid-release-after=grid_release_after grid-release-keeps=grid_release_keeps
grid-room=grid_room grid-sound=grid_sound gridContents=grid_contents gridKept=grid_kept gridOf=grid_of handed-any-grows=handed_any_grows
handed-at-grows=handed-at_grows handed-before=handed_before handed-cases=handed_cases handed-now=handed_now handed-over=handed_over_lem
handed-over-grows=handed_over_grows handed-over-is-submitted=handed_over_is_submitted handed-over-once=handed_over_once handedOver=handed_over
hands-this=hands_this has-bounds=has_bounds has-it=has_it has-outside=has_outside has-past=has_past has-setOf=has-set_of has-unheld=has_unheld
hasCome=has_come hasDue=has_due headOctets=head_octets heard-sourced=heard_sourced heardAt=heard_at heldOne=held_one held_one=held_one_lem
historyAfter=history_after holds-above=holds_above holds-bit=holds_bit holds-in=holds_in holds-past=holds_past holds-wordsOf=holds_words_of
holdsNumber=holds_number identities-all=identities_all identity-fits=identity_fits identity-is=identity_is identity-stays=identity_stays
identityIn=identity_in identityOf=identity_of if-along=if_along in-bounds-are=in_bounds_are in-bounds-from=in_bounds_from in-rs=in_rs in-ss=in_ss
inBounds=in_bounds including-other=including_other including-same=including_same into-collects=into_collects into-named=into_named isAbove=is_above
isAnswering=is_answering isClock=is_clock isClosing=is_closing isCompleteAt=is_complete_at isCompleteRow=is_complete_row isDone=is_done
isDraftOf=is_draft_of isEnrolled=is_enrolled isEntryLength=is_entry_length isFor=is_for isLabel=is_label isOk-causes=is_ok_causes isOpen=is_open
isPlaceOf=is_place_of isQuiet=is_quiet isVacant=is_vacant isWaiting=is_waiting isWithin=is_within joined-from=joined_from_lem joinedFrom=joined_from
keep-named=keep_named keep-new=keep_new_lem keepAt=keep_at keepNew=keep_new keep_at=keep_at_lem keeps-either=keeps_either keeps-more=keeps_more
keeps-set=keeps_set keeps-whole=keeps_whole kept-keeps=kept_keeps kept-where=kept_where label-grows=label_grows label-own=label_own
labelAhead=label_ahead labelFor=label_for lacking-count=lacking_count lacking-of=lacking_of lacks-two=lacks_two lapsed-named=lapsed_named
lapsedAt=lapsed_at last-address=last_address last-below=last_below lastClock=last_clock lastIdentity=last_identity leastWidth=least_width
left-out-ok=left_out_ok left-out-was-held=left_out_was_held length-consIf=length-cons_if length-words=length_words
length-wordsOf=length_words_of lengthField=length_field less-low=less_low limit-are=limit_are limit-high=limit_high limit-low=limit_low
limitFits=limit_fits list-clears=list_clears list-empty=list_empty list-short=list_short listFault=list_fault listFor=list_for listed-if=listed_if
listed-is=listed_is listsUs=lists_us longestList=longest_list longestWait=longest_wait looseRow=loose_row looseTime=loose_time low-over=low_over
low-place=low_place low-set=low_set low-under=low_under low-unset=low_unset lower-assoc=lower_assoc lower-right=lower_right lowest-in=lowest_in
lowest-some=lowest_some lowestFrom=lowest_from madeReceiver=made_receiver madeSender=made_sender madeWorld=made_world makeSender=make_sender
makingCause=making_cause manyMissing=many_missing mapped-keeps=mapped_keeps mask-bit=mask_bit members-of=members_of message-each=message_each
message-grows=message_grows message-lapsed=message_lapsed messageOf=message_of messageRow=message_row missing-low=missing_low
missingAfter=missing_after missingAtAny=missing_at_any missingBelowTop=missing_below_top missingOf=missing_of more-has=more_has
mostDestinations=most_destinations mostListed=most_listed mostNumbers=most_numbers mostStrings=most_strings mostWidth=most_width n-low=n_low
named-so=named_so new-destination=new_destination_lem new-fact=new_fact new-in-use=new_in_use new-named=new_named new-receiver=new_receiver_lem
new-record=new_record new-row-keeps=new_row_keeps new-sender=new_sender_lem newAckIn=new_ack_in newAddressIn=new_address_in
newDestination=new_destination newDestinations=new_destinations newMessage=new_message newPlace=new_place newReceiver=new_receiver
newReceiverTable=new_receiver_table newSender=new_sender newSenderTable=new_sender_table newTable=new_table next-found=next_found next-has=next_has
next-lowest=next_lowest next-number=next_number next-pass=next_pass next-value=next_value no-event=no_event no-high=no_high no-list-fits=no_list_fits
no-octet=no_octet no-r=no_r no-receiver=no_receiver_lem no-record-found=no_record_found no-row-found=no_row_found no-sender=no_sender_lem
noAddressee=no_addressee noDestination=no_destination noPlace=no_place noReceiver=no_receiver noRecord=no_record noRoom=no_room noSender=no_sender
no_record=no_record_lem none-next=none_next none-under=none_under none-waits=none_waits noneMissingAbove=none_missing_above not-other=not_other
notEnded=not_ended notedIf=noted_if nothingPending=nothing_pending now-moment=now_moment number-bounds=number_bounds number-low=number_low
numberField=number_field numberOctets=number_octets numbers-all=numbers_all numbers-are=numbers_are numbers-back=numbers_back numbers-by=numbers_by
numbers-end=numbers_end numbers-low=numbers_low numbers-stop=numbers_stop numbers-unbroken=numbers_unbroken numbersBroken=numbers_broken
numbersFrom=numbers_from numbersIn=numbers_in octet-shows=octet_shows octetBefore=octet_before octetOf=octet_of octets-are=octets_are
octets-cons=octets_cons octets-four=octets_four octets-more=octets_more octets-pdu=octets_pdu octets-two=octets_two octetsOf=octets_of
octetsOfAck=octets_of_ack octetsOfAddress=octets_of_address octetsOfData=octets_of_data octetsOfDiscard=octets_of_discard odd-text=odd_text
oddWord=odd_word of-message=of_message of-store=of_store of-waits=of_waits of-wire=of_wire old-fact=old_fact once-grows=once_grows
one-differs=one_differs one-first=one_first one-identity=one_identity one-octet=one_octet oneEntry=one_entry oneMore=one_more
ones-carried=ones_carried ones-folded=ones_folded ones-more=ones_more ones-same=ones_same ones-self=ones_self ones-sum=ones_sum_lem onesSum=ones_sum
open-at=open_at_lem open-keeps=open_keeps open-named=open_named open-pending=open_pending openAnswering=open_answering openKept=open_kept
openOf=open_of openTicked=open_ticked opened-grows=opened_grows opened-ok=opened_ok other-cell=other_cell other-digit=other_digit
other-part-ok=other_part_ok other-quiet=other_quiet overRow=over_row overTotal=over_total overlaid-more=overlaid_more overlaid-next=overlaid_next
own-cell=own_cell pairOctets=pair_octets pairs-fit=pairs_fit pairsOf=pairs_of part-found=part_found part-pass=part_pass paste-other=paste_other
pdu-filled=pdu_filled pdu-sent=pdu_sent pduFor=pdu_for pduOctets=pdu_octets pending-ack=pending_ack pendingAt=pending_at place-along=place_along
place-low=place_low place-pending=place_pending placed-keeps=placed_keeps poll-keeps=poll_keeps poll-sent=poll_sent poll-sourced=poll_sourced
poll-tells=poll_tells poll-with-sourced=poll_with_sourced pollAt=poll_at pollWith=poll_with polled-ok=polled_ok polled-undrafted=polled_undrafted
pool-ghosts=pool_ghosts pool-length=pool_length pool-less=pool_less pool-made=pool_made pool-made-keeps=pool_made_keeps pool-octets=pool_octets
pool-put-after=pool_put_after pool-put-keeps=pool_put_keeps pool-put-room=pool_put_room pool-release-after=pool_release_after
pool-release-keeps=pool_release_keeps pool-room=pool_room pool-sound=pool_sound poolContents=pool_contents poolKept=pool_kept poolOf=pool_of
priority-fits=priority_fits priority-is=priority_is priorityField=priority_field priorityOf=priority_of put-accepted=put_accepted
put-accepts=put_accepts put-by=put_by put-here=put_here put-sound=put_sound put-ways=put_ways putAnswer=put_answer quad-back=quad_back
quietTime=quiet_time raised-there=raised_there raisedIf=raised_if ranksBefore=ranks_before reached-later=reached_later read-heard=read_heard
receiver-fits=receiver_fits receiver-grows=receiver_grows receiver-is=receiver_is receiver-joins=receiver_joins receiver-law=receiver_law
receiver-moves=receiver_moves receiver-news=receiver_news receiver-quiet=receiver_quiet receiver-steps=receiver_steps receiver-tells=receiver_tells
receiver-went=receiver_went receiverAt=receiver_at receiverCollect=receiver_collect receiverDoes=receiver_does receiverPoll=receiver_poll
receiverRowTicked=receiver_row_ticked receiverSilence=receiver_silence receiverStep=receiver_step receiverTake=receiver_take
receiverTick=receiver_tick receivers-apart=receivers_apart receivers-differ=receivers_differ receivers-fit=receivers_fit record-after=record_after
record-cleared-stays=record_cleared_stays record-else=record_else record-from=record_from record-grows=record_grows record-here=record_here
record-keeps=record_keeps record-on=record_on record-pending=record_pending_lem record-raised-stays=record_raised_stays record-stays=record_stays
record-ticked-stays=record_ticked_stays recordAt=record_at recordCleared=record_cleared recordCount=record_count recordFree=record_free
recordLabel=record_label recordOf=record_of recordPending=record_pending recordRaised=record_raised recordTicked=record_ticked
records-after=records_after records-apart=records_apart records-map=records_map records-set=records_set records-stay=records_stay
refusal-collects=refusal_collects refusal-polls=refusal_polls refusalOf=refusal_of refused-quiet=refused_quiet refused-truly=refused_truly
refuses-later=refuses_later resent-ok=resent_ok rest-is=rest_is risen-after=risen_after rises-after=rises_after rises-if=rises_if
rises-those=rises_those rising-count=rising_count rising-end=rising_end rising-length-from=rising-length_from rising-next=rising_next
rising-on=rising_on rising-same=rising_same rising-setOf=rising-set_of rising-stop=rising_stop risingFrom=rising_from room-good=room_good
roster-changes=roster_changes rosterCount=roster_count row-after=row_after row-by=row_by_lem row-changes=row_changes row-cleared-ok=row_cleared_ok
row-cleared-stays=row_cleared_stays row-closed=row_closed row-collects=row_collects row-elsewhere=row_elsewhere row-found=row_found
row-freed=row_freed row-grows=row_grows row-heard=row_heard_lem row-held=row_held row-holds=row_holds row-holds-in=row_holds_in row-later=row_later
row-message=row_message row-owns=row_owns row-pending=row_pending_lem row-polled=row_polled_lem row-raised-ok=row_raised_ok
row-raised-stays=row_raised_stays row-set=row_set row-sound=row_sound row-ticked=row_ticked_lem row-ticked-ok=row_ticked_ok
row-ticked-stays=row_ticked_stays rowAhead=row_ahead rowCleared=row_cleared rowCount=row_count rowHeard=row_heard rowOr=row_or rowPending=row_pending
rowPolled=row_polled rowRaised=row_raised rowStep=row_step rowTicked=row_ticked rows-by=rows_by_lem said-ack=said_ack said-address=said_address
said-data=said_data said-discard=said_discard said-done=said_done said-handed=said_handed said-wrote=said_wrote same-cell=same_cell
same-submission=same_submission sealed-front=sealed_front self-not=self_not sender-asked=sender_asked sender-grows=sender_grows
sender-grows-but=sender_grows_but sender-is=sender_is sender-moves=sender_moves sender-news=sender_news sender-quiet=sender_quiet
sender-steps=sender_steps sender-went=sender_went senderAppend=sender_append senderAt=sender_at senderBegin=sender_begin senderDoes=sender_does
senderEnrol=sender_enrol senderForget=sender_forget senderLacking=sender_lacking senderPoll=sender_poll senderRowTicked=sender_row_ticked
senderSilence=sender_silence senderStanding=sender_standing senderStep=sender_step senderSubmit=sender_submit senderTake=sender_take
senderTick=sender_tick senderWithdraw=sender_withdraw senders-apart=senders_apart senders-differ=senders_differ senders-fit=senders_fit
sending-on=sending_on_lem sendingOn=sending_on sent-data=sent_data sent-discard=sent_discard sent-grows=sent_grows sent-ok=sent_ok
sent-there=sent_there sent-truly=sent_truly sent-wire=sent_wire sentFor=sent_for sequence-fits=sequence_fits set-short=set_short setOf=set_of
setOf-count=set_of_count setOf-fits=set_of-fits setOf-has=set_of-has setOf-holds=set_of-holds setOf-is=set_of_is setOf-long=set_of_long
setOf-members=set_of_members setOf-same=set_of_same setOf-sound=set_of_sound setOf-top=set_of_top shaped-freed=shaped_freed shaped-put=shaped_put
shaped-where=shaped_where short-string=short_string shortBuffer=short_buffer silence-keeps=silence_keeps silence-sourced=silence_sourced
silenceAt=silence_at silenceTo=silence_to silenced-keeps=silenced_keeps silentRounds=silent_rounds silentWait=silent_wait small-ones=small_ones
some-due=some_due some-lower=some_lower sound-by=sound_by sound-count=sound_count sound-fits=sound_fits sound-gaps=sound_gaps sound-kept=sound_kept
sound-long=sound_long sound-of=sound_of sound-same=sound_same sound-small=sound_small sound-top=sound_top sound-topped=sound_topped
sound-words=sound_words sourceAt=source_at sourceIn=source_in standing-of=standing_of stateNumber=state_number step-apart=step_apart
stepAnswer=step_answer storeBy=store_by string-by=string_by_lem string-empty=string_empty string-free-same=string_free_same string-in=string_in
string-length=string_length string-out=string_out string-put-none=string_put_none string-put-other=string_put_other string-put-same=string_put_same
string-row-other=string_row_other string-same=string_same stringAt=string_at stringBy=string_by submit-elsewhere=submit_elsewhere
submit-new=submit_new submit-sourced=submit_sourced submit-to=submit_to_lem submit-to-sourced=submit_to_sourced submitAt=submit_at submitOf=submit_of
submitTo=submit_to submitted-before=submitted_before submitted-by=submitted_by submitted-grows=submitted_grows submitted-once=submitted_once
submitted-to=submitted_to_lem submittedRow=submitted_row submittedTo=submitted_to switchedAt=switched_at switchedTo=switched_to t-low=t_low
table-long=table_long tableHeard=table_heard take-keeps=take_keeps take-old=take_old take-sourced=take_sourced takeAck=take_ack
takeAddress=take_address takeData=take_data takeDiscard=take_discard takeRead=take_read tally-le=tally_le tally-more=tally_more tally-same=tally_same
tally-skip=tally_skip tally-turn=tally_turn tally-upTo=tally_up_to tally-zero=tally_zero those-fewer=those_fewer three-cases=three_cases
tick-keeps=tick_keeps ticked-keeps=ticked_keeps ticked-ok=ticked_ok timeOption=time_option told-later=told_later toldOf=told_of top-under=top_under
total-by=total_by total-empty=total_empty total-free=total_free total-is=total_is total-less=total_less total-most=total_most total-put=total_put
total-row=total_row total-string=total_string turned-below=turned_below turned-fits=turned_fits turned-other=turned_other twoOctets=two_octets
typeField=type_field undrafted-if=undrafted_if undrafted-on=undrafted_on unfitFor=unfit_for unhanded-grows=unhanded_grows unheard-step=unheard_step
unlessBroken=unless_broken unrisenAfter=unrisen_after unsilenced-keeps=unsilenced_keeps unsubmitted-after=unsubmitted_after untouched-by=untouched_by
unwritten-end=unwritten_end unwritten-on=unwritten_on unwritten-step=unwritten_step unwritten-stop=unwritten_stop vacant-found=vacant_found
vacant-incomplete=vacant_incomplete vacantRow=vacant_row waitFor=wait_for waitsFrom=waits_from width-are=width_are width-high=width_high
widthFits=width_fits wire-from=wire_from with-keeps=with_keeps with-kept=with_kept with-named=with_named with-new=with_new with-sent=with_sent
with-top=with_top withAck=with_ack withEach=with_each withFragment=with_fragment withHeld=with_held withNewRow=with_new_row withReceiver=with_receiver
withRecordAt=with_record_at withRecords=with_records withRoster=with_roster withRowAt=with_row_at withRowFreed=with_row_freed withRows=with_rows
withSender=with_sender withStanding=with_standing withString=with_string withTable=with_table withdraw-keeps=withdraw_keeps
withdraw-sourced=withdraw_sourced withdrawAt=withdraw_at without-new=without_new without-some=without_some without-top=without_top word-bit=word_bit
word-is=word_is word-of=word_of_lem wordCount=word_count wordSum=word_sum wordSum-blanked=word_sum-blanked wordSum-end=word_sum_end
wordSum-last=word_sum_last wordSum-more=word_sum_more wordSum-set=word_sum-set words-at=words_at wordsOf-fits=words_of_fits wordsOf-is=words_of_is
written-ack=written_ack written-truly=written_truly written-whole=written_whole written-wire=written_wire wrong-length=wrong_length
wrong-sum=wrong_sum zero-lengths=zero_lengths
"""
TABLE = dict(pair.split("=") for pair in NAMES.split())
LETTER = r"[\w'⊎-]"
NAME = re.compile(rf"(?<!{LETTER})(?:" + "|".join(re.escape(n) for n in sorted(TABLE, key=len, reverse=True)) + rf")(?!{LETTER})")
QUOTED = re.compile(r'"(?:\\.|[^"\\\n])*"')
TICKED = re.compile(r"`[^`\n]+`")
CRATE = ("hex", "hexadecimal")


def turned(text):
    return NAME.sub(lambda m: TABLE[m[0]], text).replace(f"Rattle.{CRATE[0]}.", f"Rattle.{CRATE[1]}.")


def outside_quotes(text):
    out, at = [], 0
    for quoted in QUOTED.finditer(text):
        out += [turned(text[at : quoted.start()]), quoted[0]]
        at = quoted.end()
    return "".join(out) + turned(text[at:])


def rewrite(path, turn):
    before = path.read_text(encoding="utf-8")
    after = turn(before)
    if after != before:
        path.write_text(after, encoding="utf-8")


def rename_crate():
    old, new = CRATE
    if Path("crates", old).is_dir():
        subprocess.run(["git", "mv", f"crates/{old}", f"crates/{new}"], check=True)
    rewrite(Path("crates.txt"), lambda t: re.sub(rf"(?m)^{old}:|(?<= ){old}(?= |$)", lambda m: m[0].replace(old, new), t))
    for path in Path("crates").rglob("*.rt"):
        rewrite(path, lambda t: re.sub(rf"\b{old}::", f"{new}::", t))


def main():
    for path in sorted(Path("crates").rglob("*")):
        if path.suffix in (".rt", ".edit"):
            rewrite(path, outside_quotes)
        elif path.suffix == ".antt":
            rewrite(path, turned)
    for path in [*sorted(Path("docs").glob("*.md")), Path("README.md")]:
        rewrite(path, lambda t: TICKED.sub(lambda m: turned(m[0]), t))
    rename_crate()


main()
