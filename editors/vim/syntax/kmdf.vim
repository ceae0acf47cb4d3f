" Written by tools/editors.py from editors/words.txt. Scenarios of kmdfsim.
if exists("b:current_syntax")
  finish
endif
syn case match
syn match kmdfNumber /\<\d\+\>/
syn match kmdfOperator /[-+*\/%&|^()=<]\|!=/
syn match kmdfActions /\<\%(rebalance\|surprise\|control\|cancel\|remove\|lower\|raise\|sleep\|start\|write\|read\|wake\|set\)\>/
syn match kmdfKinds /\<\%(spinlock\|waitlock\|workitem\|request\|object\|timer\|dpc\)\>/
syn match kmdfAttributes /\<\%(sequential\|dispatch\|parallel\|inherit\|passive\|working\|device\|manual\|after\|queue\|none\|off\)\>/
syn match kmdfAtoms /\<\%(request\|device\|length\|status\|code\|self\)\>/
syn match kmdfStatuses /\<\%(INSUFFICIENT_RESOURCES\|INVALID_DEVICE_REQUEST\|INVALID_DEVICE_STATE\|NO_MORE_ENTRIES\|DELETE_PENDING\|UNSUCCESSFUL\|WDF_PAUSED\|CANCELLED\|WDF_BUSY\|SUCCESS\)\>/
syn match kmdfCallbacks /\<\%(EvtDeviceD0EntryPostInterruptsEnabled\|EvtDeviceD0ExitPreInterruptsDisabled\|EvtDeviceSelfManagedIoCleanup\|EvtDeviceSelfManagedIoRestart\|EvtDeviceSelfManagedIoSuspend\|EvtDeviceSelfManagedIoFlush\|EvtDeviceSelfManagedIoInit\|EvtDevicePrepareHardware\|EvtDeviceReleaseHardware\|EvtDeviceSurpriseRemoval\|EvtDeviceQueryRemove\|EvtIoCanceledOnQueue\|EvtRequestCompletion\|EvtInterruptDisable\|EvtCleanupCallback\|EvtDestroyCallback\|EvtDeviceQueryStop\|EvtInterruptEnable\|EvtIoDeviceControl\|EvtDeviceD0Entry\|EvtRequestCancel\|EvtDeviceD0Exit\|EvtInterruptDpc\|EvtInterruptIsr\|EvtIoQueueState\|EvtIoDefault\|EvtTimerFunc\|EvtIoResume\|EvtWorkItem\|EvtDpcFunc\|EvtIoWrite\|EvtIoRead\|EvtIoStop\)\>/
syn match kmdfCalls /\<\%(WdfIoQueueRetrieveNextRequest\|WdfIoQueueDrainSynchronously\|WdfIoQueuePurgeSynchronously\|WdfIoQueueStopSynchronously\|WdfRequestCancelSentRequest\|WdfInterruptQueueDpcForIsr\|WdfRequestForwardToIoQueue\|WdfRequestMarkCancelableEx\|WdfRequestUnmarkCancelable\|WdfRequestStopAcknowledge\|WdfInterruptAcquireLock\|WdfInterruptReleaseLock\|WdfIoQueueReadyNotify\|WdfObjectDereference\|WdfRequestIsCanceled\|WdfObjectReference\|WdfRequestComplete\|WdfSpinLockAcquire\|WdfSpinLockRelease\|WdfWaitLockAcquire\|WdfWaitLockRelease\|WdfWorkItemEnqueue\|WdfRequestRequeue\|WdfSpinLockCreate\|WdfWaitLockCreate\|WdfWorkItemCreate\|WdfIoTargetStart\|WdfRequestCreate\|WdfWorkItemFlush\|WdfIoQueueDrain\|WdfIoQueuePurge\|WdfIoQueueStart\|WdfIoTargetStop\|WdfObjectCreate\|WdfObjectDelete\|WdfIoQueueStop\|WdfRequestSend\|WdfTimerCreate\|WdfDpcEnqueue\|WdfTimerStart\|WdfDpcCancel\|WdfDpcCreate\|WdfTimerStop\|GetContext\|SetContext\)\>/
syn match kmdfBlocks /^\s*\zs\%(interrupt\|device\|driver\|target\|class\|order\|queue\|app\|end\|pnp\|on\)\>/
syn match kmdfLines /^\s*\zs\%(serialize\|register\|default\|objects\|version\|period\|level\|limit\|picks\|power\|scope\|cpus\|when\|zero\|for\|at\)\>/
syn match kmdfStatements /^\s*\zs\%(repeat\|return\|spend\|call\|else\|get\|let\|log\|put\|if\)\>/
syn match kmdfComment /#.*/
hi def link kmdfNumber Number
hi def link kmdfOperator Operator
hi def link kmdfComment Comment
hi def link kmdfActions Keyword
hi def link kmdfKinds StorageClass
hi def link kmdfAttributes StorageClass
hi def link kmdfAtoms Special
hi def link kmdfStatuses Constant
hi def link kmdfCallbacks Identifier
hi def link kmdfCalls Function
hi def link kmdfBlocks Structure
hi def link kmdfLines Type
hi def link kmdfStatements Statement
setlocal commentstring=#\ %s
let b:current_syntax = "kmdf"
